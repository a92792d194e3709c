/* Files with elements in linked blocks: made so, converted when they are there, or grown when another element lies behind. */

#include <string.h>

#include "make.h"

/* ---- Raw elements ---- */

static void linked(void)
{
    int32 file = create("linked.hdf", 0);
    int32 element = NEED(HLcreate(file, 1000, 1, 16, 4));
    NEED(Hwrite(element, 150, bytes));
    NEED(Hendaccess(element));
    put(file, 1001, 1, 10);
    element = NEED(HLcreate(file, 1001, 1, 8, 3));
    NEED(Hseek(element, 10, DF_START));
    NEED(Hwrite(element, 30, bytes));
    NEED(Hendaccess(element));
    NEED(Hclose(file));
}

/* Blocks in the middle are never written. */
static void linked_holes(void)
{
    int32 file = create("linked_holes.hdf", 0);
    int32 element = NEED(HLcreate(file, 1000, 1, 16, 4));
    NEED(Hwrite(element, 10, bytes));
    NEED(Hseek(element, 100, DF_START));
    NEED(Hwrite(element, 10, bytes));
    NEED(Hendaccess(element));
    NEED(Hclose(file));
}

/* Stores the first bytes of an element, or none. */
static void put_first(int32 file, uint16 tag, uint16 ref, int32 length)
{
    int32 element = NEED(Hstartwrite(file, tag, ref, length));
    if (length > 0)
        NEED(Hwrite(element, length, bytes));
    NEED(Hendaccess(element));
}

/* Makes an element in linked blocks. One that is there already becomes the first block. */
static void link_blocks(int32 file, uint16 ref, int32 block, int32 per_table)
{
    NEED(Hendaccess(NEED(HLcreate(file, 1000, ref, block, per_table))));
}

/* Writes so many bytes of an element from a place on, each the sample's of the same place. */
static void write_part(int32 file, uint16 ref, int32 place, int32 count)
{
    int32 element = NEED(Hstartaccess(file, 1000, ref, DFACC_RDWR));
    NEED(Hseek(element, place, DF_START));
    NEED(Hwrite(element, count, bytes + place));
    NEED(Hendaccess(element));
}

/* An element of so many bytes, at times none, that grows when another one already lies behind it. */
static void appended(const char *name, int32 first, int32 block, int32 per_table, int32 count)
{
    int32 file = create(name, 0);
    put_first(file, 1100, 1, first);
    put(file, 1100, 2, 10);
    int32 element = NEED(Hstartaccess(file, 1100, 1, DFACC_RDWR | DFACC_APPENDABLE));
    NEED(HLsetblockinfo(element, block, per_table));
    NEED(Hseek(element, first, DF_START));
    NEED(Hwrite(element, count, bytes));
    NEED(Hendaccess(element));
    NEED(Hclose(file));
}

/* First blocks that are empty, shorter than the others, as long, and longer; elements that end with the first block. */
static void linked_first(void)
{
    static const struct {
        int32 first, length;
    } elements[] = {{0, 40}, {1, 40}, {5, 75}, {16, 75}, {17, 75}, {100, 130}, {0, 0}, {30, 30}};
    int32 file = create("linked_first.hdf", 0);
    for (int i = 0; i < COUNT(elements); i++) {
        uint16 ref = (uint16)(i + 1);
        int32 first = elements[i].first, length = elements[i].length;
        put_first(file, 1000, ref, first);
        link_blocks(file, ref, 16, 4);
        if (first < length)
            write_part(file, ref, first, length - first);
    }
    NEED(Hclose(file));
}

/* As many tables as the rules allow, each of one block of one byte. */
static void linked_most_tables(void)
{
    int32 file = create("linked_most_tables.hdf", 0);
    link_blocks(file, 1, 1, 1);
    write_part(file, 1, 0, 256);
    NEED(Hclose(file));
}

/* Elements in blocks of eight bytes, three a table, of which few are written; of the last one none is. */
static void linked_unwritten(void)
{
    int32 file = create("linked_unwritten.hdf", 0);
    put_first(file, 1000, 6, 20);
    put_first(file, 1000, 7, 0);
    for (uint16 ref = 1; ref <= 8; ref++)
        link_blocks(file, ref, 8, 3);
    write_part(file, 1, 8, 8);   /* not block 0 */
    write_part(file, 2, 3, 2);   /* block 0 in part */
    write_part(file, 3, 40, 5);  /* no block of the first table */
    write_part(file, 4, 0, 20);
    write_part(file, 4, 90, 10); /* no block of the second and the third table */
    for (int32 place = 66; place > 0; place -= 16)
        write_part(file, 5, place, 6); /* every other block, the last one first */
    write_part(file, 6, 60, 5);  /* not those behind a block 0 of 20 bytes */
    write_part(file, 7, 10, 9);  /* not the one behind an empty block 0 */
    NEED(Hclose(file));
}

/* Elements that grow in turn, the file closed and opened again each time. A place that was passed over is written later. */
static void linked_reopened(void)
{
    static const struct {
        uint16 ref;
        int32 place, count;
    } parts[] = {{1, 20, 15}, {2, 25, 30}, {1, 90, 5}, {2, 55, 45}, {1, 48, 10}, {2, 100, 1}, {1, 95, 50}};
    int32 file = create("linked_reopened.hdf", 0);
    link_blocks(file, 1, 12, 2);
    write_part(file, 1, 0, 20);
    put_first(file, 1000, 2, 25);
    link_blocks(file, 2, 10, 2);
    NEED(Hclose(file));
    for (int i = 0; i < COUNT(parts); i++) {
        file = NEED(Hopen("linked_reopened.hdf", DFACC_RDWR, 0));
        write_part(file, parts[i].ref, parts[i].place, parts[i].count);
        NEED(Hclose(file));
    }
}

/* Compressed data of which nothing is stored yet when another element is: its first block is empty. */
static void compressed_linked(void)
{
    int32 file = create("compressed_linked.hdf", 0);
    model_info model;
    comp_info info;
    memset(&model, 0, sizeof model);
    memset(&info, 0, sizeof info);
    info.skphuff.skp_size = 1;
    int32 element = NEED(HCcreate(file, 1300, 1, COMP_MODEL_STDIO, &model, COMP_CODE_SKPHUFF, &info));
    NEED(Hwrite(element, 100, bytes));
    put(file, 1301, 1, 20);
    NEED(Hwrite(element, 100, bytes + 100));
    NEED(Hendaccess(element));
    NEED(Hclose(file));
}

/* ---- Vdatas ---- */

/* Records added when something else already lies behind the first ones. */
static void vdata_appended(void)
{
    int32 file = v_create("vdata_appended.hdf");
    int32 vdata = road_vdata(file, "growing", FULL_INTERLACE, DFNT_UINT32);
    int32 ref = NEED(VSQueryref(vdata));
    NEED(VSdetach(vdata));
    put(file, 1400, 1, 30);
    vdata = NEED(VSattach(file, ref, "w"));
    NEED(VSsetblocksize(vdata, 48));
    NEED(VSseek(vdata, 6));
    NEED(VSwrite(vdata, bytes, 9, FULL_INTERLACE));
    NEED(VSdetach(vdata));
    v_close(file);
}

/* The library does not heed the block length that it is given here: its blocks have 4,096 bytes. */
static void vdata_appendable(void)
{
    int32 file = v_create("vdata_appendable.hdf");
    int32 vdata = road_vdata(file, "appendable", FULL_INTERLACE, DFNT_UINT32);
    NEED(VSappendable(vdata, 48));
    put(file, 1400, 1, 30);
    NEED(VSwrite(vdata, bytes, 5, FULL_INTERLACE));
    NEED(VSdetach(vdata));
    v_close(file);
}

/* Writes so many records of a Vdata from an index on. */
static void write_records(int32 file, int32 ref, int32 record, int32 count)
{
    int32 vdata = NEED(VSattach(file, ref, "w"));
    NEED(VSsetblocksize(vdata, 60));
    NEED(VSsetnumblocks(vdata, 2));
    NEED(VSseek(vdata, record));
    NEED(VSwrite(vdata, bytes + 12 * record, count, FULL_INTERLACE));
    NEED(VSdetach(vdata));
}

/* Two Vdatas that grow in turn, the file closed and opened again each time. */
static void vdata_turns(void)
{
    int32 refs[2], records[] = {7, 7};
    int32 file = v_create("vdata_turns.hdf");
    for (int i = 0; i < 2; i++) {
        int32 vdata = road_vdata(file, i ? "second" : "first", FULL_INTERLACE, DFNT_UINT32);
        refs[i] = NEED(VSQueryref(vdata));
        NEED(VSdetach(vdata));
    }
    v_close(file);
    for (int32 added = 1; added <= 8; added++) {
        int turn = added % 2;
        file = v_open("vdata_turns.hdf");
        write_records(file, refs[turn], records[turn], added);
        records[turn] += added;
        v_close(file);
    }
}

/* Records that are passed over. */
static void vdata_unwritten(void)
{
    int32 file = v_create("vdata_unwritten.hdf");
    int32 vdata = road_vdata(file, "passed over", FULL_INTERLACE, DFNT_UINT32);
    int32 ref = NEED(VSQueryref(vdata));
    NEED(VSdetach(vdata));
    put(file, 1400, 1, 30);
    write_records(file, ref, 40, 3);
    write_records(file, ref, 20, 2);
    v_close(file);
}

/* ---- Scientific data sets ---- */

/* Two sets that grow in turn, each in pieces all over the file. */
static void sds_unlimited(void)
{
    int32 file = sd_create("sds_unlimited.hdf");
    int32 sizes[] = {SD_UNLIMITED, 5}, count[] = {1, 5}, sets[2];
    for (int i = 0; i < 2; i++) {
        sets[i] = NEED(SDcreate(file, i ? "second" : "first", DFNT_INT16, 2, sizes));
        NEED(SDsetblocksize(sets[i], 40));
    }
    for (int32 row = 0; row < 12; row++) {
        int32 start[] = {row, 0};
        NEED(SDwritedata(sets[row % 2], start, NULL, count, bytes + row));
    }
    for (int i = 0; i < 2; i++)
        NEED(SDendaccess(sets[i]));
    NEED(SDend(file));
}

/* Makes a set of rows of five numbers, in blocks of so many bytes, 0 for as many as the library takes itself. */
static void create_rows(int32 file, const char *name, int32 type, int32 block)
{
    int32 sizes[] = {SD_UNLIMITED, 5};
    int32 set = NEED(SDcreate(file, name, type, 2, sizes));
    if (block > 0)
        NEED(SDsetblocksize(set, block));
    NEED(SDendaccess(set));
}

/* Writes rows of a set. */
static void write_rows(int32 file, int32 index, int32 row, int32 count)
{
    int32 start[] = {row, 0}, sizes[] = {count, 5};
    int32 set = NEED(SDselect(file, index));
    NEED(SDwritedata(set, start, NULL, sizes, bytes + 5 * row));
    NEED(SDendaccess(set));
}

/* Two sets that grow in turn, the file closed and opened again each time. Rows that are passed over are filled. */
static void sds_reopened(void)
{
    int32 file = sd_create("sds_reopened.hdf");
    create_rows(file, "blocks of 20 bytes", DFNT_INT16, 20);
    create_rows(file, "blocks of the library", DFNT_UINT8, 0);
    write_rows(file, 0, 0, 2);
    write_rows(file, 1, 0, 3);
    NEED(SDend(file));
    for (int32 go = 1; go <= 4; go++) {
        file = NEED(SDstart("sds_reopened.hdf", DFACC_RDWR));
        write_rows(file, go % 2, 30 * go, go);
        NEED(SDend(file));
    }
}

/* Rows that are passed over are not filled. The first set has a row a block: block 0 and the second table are not written. */
static void sds_unfilled(void)
{
    int32 file = sd_create("sds_unfilled.hdf");
    NEED(SDsetfillmode(file, SD_NOFILL));
    create_rows(file, "a row a block", DFNT_UINT8, 5);
    create_rows(file, "two rows a block", DFNT_INT16, 20);
    write_rows(file, 0, 1, 2);
    write_rows(file, 1, 0, 3);
    NEED(SDend(file));
    for (int go = 0; go < 4; go++) {
        static const int32 rows[] = {300, 30, 100, 11};
        file = NEED(SDstart("sds_unfilled.hdf", DFACC_RDWR));
        NEED(SDsetfillmode(file, SD_NOFILL));
        write_rows(file, go % 2, rows[go], 1);
        NEED(SDend(file));
    }
}

/* Makes a set that grows along the dimension `time`. Its rows are numbers, or two numbers, or two times three. */
static void create_growing(int32 file, const char *name, int32 type, int32 rank)
{
    int32 sizes[] = {SD_UNLIMITED, 2, 3};
    int32 set = NEED(SDcreate(file, name, type, rank, sizes));
    NEED(SDsetdimname(NEED(SDgetdimid(set, 0)), "time"));
    NEED(SDendaccess(set));
}

/* Adds rows to a set behind those that it has. */
static void add_rows(int32 file, int32 index, int32 count)
{
    char name[H4_MAX_NC_NAME + 1];
    int32 rank, sizes[3], type, attributes, start[] = {0, 0, 0};
    int32 set = NEED(SDselect(file, index));
    NEED(SDgetinfo(set, name, &rank, sizes, &type, &attributes));
    start[0] = sizes[0];
    sizes[0] = count;
    NEED(SDwritedata(set, start, NULL, sizes, bytes + 40 * start[0] + index));
    NEED(SDendaccess(set));
}

/* Makes the sets of sds_grown.hdf, a fixed one among those that grow, and as the last one a scale of two numbers. */
static void create_grown(int32 file)
{
    int32 sizes[] = {2, 3}, start[] = {0, 0};
    create_growing(file, "pressure", DFNT_FLOAT32, 1);
    create_growing(file, "snow", DFNT_INT16, 2);
    int32 set = NEED(SDcreate(file, "height", DFNT_INT32, 2, sizes));
    NEED(SDwritedata(set, start, NULL, sizes, bytes));
    NEED(SDsetdimname(NEED(SDgetdimid(set, 0)), "row"));
    NEED(SDendaccess(set));
    create_growing(file, "cover", DFNT_UINT8, 3);
    set = NEED(SDselect(file, 0));
    NEED(SDsetdimscale(NEED(SDgetdimid(set, 0)), 2, DFNT_INT32, bytes));
    NEED(SDendaccess(set));
}

/* Sets with one dimension in common that all have two rows at first. The file is opened again twice, and the sets grow in
 * turn, each by another number of rows. */
static void sds_grown(void)
{
    static const int32 counts[][5] = {{2, 2, 0, 2, 0}, {1, 2, 0, 3, 4}, {2, 4, 0, 1, 1}};
    int32 file = sd_create("sds_grown.hdf");
    create_grown(file);
    for (int go = 0; go < COUNT(counts); go++) {
        if (go > 0)
            file = NEED(SDstart("sds_grown.hdf", DFACC_RDWR));
        for (int32 i = 0; i < COUNT(counts[go]); i++)
            if (counts[go][i] > 0)
                add_rows(file, i, counts[go][i]);
        NEED(SDend(file));
    }
}

/* Two sets that keep twelve bits of each number and grow in turn, the file opened again each time. Two rows have whole bytes.
 * What is packed (tag 40) grows in linked blocks. The library lets no set grow that is packed otherwise or in chunks. */
static void sds_grown_packed(void)
{
    int32 file = sd_create("sds_grown_packed.hdf");
    for (int32 i = 0; i < 2; i++) {
        create_rows(file, i ? "twelve bits, signed" : "twelve bits", DFNT_INT16, 0);
        int32 set = NEED(SDselect(file, i));
        NEED(SDsetnbitdataset(set, 11, 12, i, FALSE));
        NEED(SDendaccess(set));
        add_rows(file, i, 2 + 2 * i);
    }
    NEED(SDend(file));
    for (int32 go = 1; go <= 4; go++) {
        file = NEED(SDstart("sds_grown_packed.hdf", DFACC_RDWR));
        add_rows(file, go % 2, 2 * go);
        NEED(SDend(file));
    }
}

void linked_files(void)
{
    linked();
    linked_holes();
    appended("appended.hdf", 10, 32, 4, 40);
    appended("appended_empty.hdf", 0, 16, 2, 50);
    linked_first();
    linked_most_tables();
    linked_unwritten();
    linked_reopened();
    compressed_linked();
    vdata_appended();
    vdata_appendable();
    vdata_turns();
    vdata_unwritten();
    sds_unlimited();
    sds_reopened();
    sds_unfilled();
    sds_grown();
    sds_grown_packed();
}
