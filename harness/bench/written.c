/* Files as programs write them through the interfaces of libhdf4: SD, GR, V, DFSD, DFR8 and DFAN. */
#include <stdio.h>

#include "bench.h"
#include "mfhdf.h"

enum { ROWS = 4, COLUMNS = 5, POINTS = ROWS * COLUMNS, NAME = 32, PALETTE = 768 };

/* Writes a word and a number to a lent string, and gives it. */
static char *name_of(char *name, const char *word, int number)
{
    snprintf(name, NAME, "%s %d", word, number);
    return name;
}

/* ---- Data sets (SD) ---- */

/* What a data set gets before its numbers are written, and which one it is. */
typedef void prepare(int32 set, int number);

static void add_set(int32 file, int number, prepare *prepared)
{
    char name[NAME];
    int32 sizes[2] = {ROWS, COLUMNS}, start[2] = {0, 0};
    float32 numbers[POINTS];
    for (int i = 0; i < POINTS; i++)
        numbers[i] = (float32)(number + i);
    int32 set = SDcreate(file, name_of(name, "set", number), DFNT_FLOAT32, 2, sizes);
    need(set != FAIL, "SDcreate");
    if (prepared != NULL)
        prepared(set, number);
    need(SDwritedata(set, start, NULL, sizes, numbers) != FAIL && SDendaccess(set) != FAIL, "SDwritedata");
}

static void write_sets(const char *path, int count, prepare *prepared)
{
    int32 file = SDstart(path, DFACC_CREATE);
    need(file != FAIL, "SDstart");
    for (int i = 0; i < count; i++)
        add_set(file, i, prepared);
    need(SDend(file) != FAIL, "SDend");
}

static void set_attributes(int32 set, int number)
{
    float32 range[2] = {0, (float32)number};
    need(SDsetattr(set, "units", DFNT_CHAR8, 6, "kelvin") != FAIL, "SDsetattr");
    need(SDsetattr(set, "valid_range", DFNT_FLOAT32, 2, range) != FAIL, "SDsetattr");
}

static void set_chunks(int32 set, int number)
{
    HDF_CHUNK_DEF chunk = {.chunk_lengths = {2, COLUMNS}};
    (void)number;
    need(SDsetchunk(set, chunk, HDF_CHUNK) != FAIL, "SDsetchunk");
}

static void set_compression(int32 set, int number)
{
    comp_info how = {.deflate = {.level = 6}};
    (void)number;
    need(SDsetcompress(set, COMP_CODE_DEFLATE, &how) != FAIL, "SDsetcompress");
}

/* Dimensions of its own, each with a scale. */
static void set_scales(int32 set, int number)
{
    static const char *const words[2] = {"row", "column"};
    static const int32 sizes[2] = {ROWS, COLUMNS};
    float32 scale[COLUMNS] = {0, 1, 2, 3, 4};
    char name[NAME];
    for (int i = 0; i < 2; i++) {
        int32 dimension = SDgetdimid(set, i);
        need(SDsetdimname(dimension, name_of(name, words[i], number)) != FAIL, "SDsetdimname");
        need(SDsetdimscale(dimension, sizes[i], DFNT_FLOAT32, scale) != FAIL, "SDsetdimscale");
    }
}

/* The same dimensions for all. */
static void share_dimensions(int32 set, int number)
{
    (void)number;
    need(SDsetdimname(SDgetdimid(set, 0), "row") != FAIL, "SDsetdimname");
    need(SDsetdimname(SDgetdimid(set, 1), "column") != FAIL, "SDsetdimname");
}

static void sets(const char *path, int count)
{
    write_sets(path, count, NULL);
}

static void sets_attributes(const char *path, int count)
{
    write_sets(path, count, set_attributes);
}

static void sets_chunked(const char *path, int count)
{
    write_sets(path, count, set_chunks);
}

static void sets_compressed(const char *path, int count)
{
    write_sets(path, count, set_compression);
}

static void sets_scales(const char *path, int count)
{
    write_sets(path, count, set_scales);
}

static void sets_shared(const char *path, int count)
{
    write_sets(path, count, share_dimensions);
}

/* Closes the file behind each data set, and opens it for the next one. */
static void sets_reopened(const char *path, int count)
{
    write_sets(path, 1, share_dimensions);
    for (int i = 1; i < count; i++) {
        int32 file = SDstart(path, DFACC_WRITE);
        need(file != FAIL, "SDstart");
        add_set(file, i, share_dimensions);
        need(SDend(file) != FAIL, "SDend");
    }
}

/* Each data set is one column, in a chunk for each number. */
static void sets_many_chunks(const char *path, int count)
{
    int32 sizes[1] = {2 * POINTS}, start[1] = {0};
    float32 numbers[2 * POINTS] = {0};
    HDF_CHUNK_DEF chunk = {.chunk_lengths = {1}};
    char name[NAME];
    int32 file = SDstart(path, DFACC_CREATE);
    need(file != FAIL, "SDstart");
    for (int i = 0; i < count; i++) {
        int32 set = SDcreate(file, name_of(name, "set", i), DFNT_FLOAT32, 1, sizes);
        need(set != FAIL && SDsetchunk(set, chunk, HDF_CHUNK) != FAIL, "SDsetchunk");
        need(SDwritedata(set, start, NULL, sizes, numbers) != FAIL && SDendaccess(set) != FAIL, "SDwritedata");
    }
    need(SDend(file) != FAIL, "SDend");
}

/* All data sets grow by a row at a time, by turns, so that they come to stand in linked blocks. */
static void sets_growing(const char *path, int count)
{
    int32 sizes[2] = {SD_UNLIMITED, COLUMNS}, row[2] = {1, COLUMNS};
    float32 numbers[COLUMNS] = {0};
    char name[NAME];
    int32 file = SDstart(path, DFACC_CREATE);
    need(file != FAIL, "SDstart");
    for (int i = 0; i < count; i++) {
        int32 set = SDcreate(file, name_of(name, "set", i), DFNT_FLOAT32, 2, sizes);
        need(set != FAIL && SDendaccess(set) != FAIL, "SDcreate");
    }
    for (int32 at = 0; at < ROWS; at++)
        for (int i = 0; i < count; i++) {
            int32 start[2] = {at, 0}, set = SDselect(file, i);
            need(SDwritedata(set, start, NULL, row, numbers) != FAIL && SDendaccess(set) != FAIL, "SDwritedata");
        }
    need(SDend(file) != FAIL, "SDend");
}

/* ---- Images (GR) ---- */

static void set_palette(int32 image, int number)
{
    uint8 palette[PALETTE] = {(uint8)number};
    int32 id = GRgetlutid(image, 0);
    need(GRwritelut(id, 3, DFNT_UINT8, MFGR_INTERLACE_PIXEL, PALETTE / 3, palette) != FAIL, "GRwritelut");
    need(GRsetattr(image, "title", DFNT_CHAR8, 6, "Dublin") != FAIL, "GRsetattr");
}

static void add_image(int32 images, int number, prepare *prepared)
{
    char name[NAME];
    int32 sizes[2] = {COLUMNS, ROWS}, start[2] = {0, 0};
    uint8 points[POINTS] = {(uint8)number};
    int32 image = GRcreate(images, name_of(name, "image", number), 1, DFNT_UINT8, MFGR_INTERLACE_PIXEL, sizes);
    need(image != FAIL && GRwriteimage(image, start, NULL, sizes, points) != FAIL, "GRwriteimage");
    if (prepared != NULL)
        prepared(image, number);
    need(GRendaccess(image) != FAIL, "GRendaccess");
}

static void add_images(int32 file, int count, prepare *prepared)
{
    int32 images = GRstart(file);
    need(images != FAIL, "GRstart");
    for (int i = 0; i < count; i++)
        add_image(images, i, prepared);
    need(GRend(images) != FAIL, "GRend");
}

static int32 new_file(const char *path)
{
    int32 file = Hopen(path, DFACC_CREATE, 0);
    need(file != FAIL, "Hopen for a new file");
    return file;
}

static void images(const char *path, int count)
{
    int32 file = new_file(path);
    add_images(file, count, NULL);
    need(Hclose(file) != FAIL, "Hclose");
}

static void images_palettes(const char *path, int count)
{
    int32 file = new_file(path);
    add_images(file, count, set_palette);
    need(Hclose(file) != FAIL, "Hclose");
}

/* Closes the file behind each image, and opens it for the next one. */
static void images_reopened(const char *path, int count)
{
    need(Hclose(new_file(path)) != FAIL, "Hclose");
    for (int i = 0; i < count; i++) {
        int32 file = Hopen(path, DFACC_RDWR, 0);
        need(file != FAIL, "Hopen to edit");
        int32 images = GRstart(file);
        need(images != FAIL, "GRstart");
        add_image(images, i, NULL);
        need(GRend(images) != FAIL && Hclose(file) != FAIL, "Hclose");
    }
}

/* ---- Vdatas and Vgroups (V) ---- */

/* Gives the reference of a new Vdata. */
static int32 add_vdata(int32 file, int number)
{
    char name[NAME];
    int32 records[ROWS] = {number};
    int32 reference = VHstoredata(file, "count", (const uint8 *)records, ROWS, DFNT_INT32, name_of(name, "table", number), "bench");
    need(reference != FAIL, "VHstoredata");
    return reference;
}

static void add_vgroup(int32 file, int number, int members)
{
    char name[NAME];
    int32 group = Vattach(file, -1, "w");
    need(group != FAIL && Vsetname(group, name_of(name, "group", number)) != FAIL, "Vattach");
    for (int i = 0; i < members; i++)
        need(Vaddtagref(group, DFTAG_VH, add_vdata(file, number + i)) != FAIL, "Vaddtagref");
    need(Vdetach(group) != FAIL, "Vdetach");
}

static void vdatas(const char *path, int count)
{
    int32 file = new_file(path);
    need(Vstart(file) != FAIL, "Vstart");
    for (int i = 0; i < count; i++)
        add_vdata(file, i);
    need(Vend(file) != FAIL && Hclose(file) != FAIL, "Hclose");
}

static void write_vgroups(const char *path, int count, int members)
{
    int32 file = new_file(path);
    need(Vstart(file) != FAIL, "Vstart");
    for (int i = 0; i < count; i++)
        add_vgroup(file, i, members);
    need(Vend(file) != FAIL && Hclose(file) != FAIL, "Hclose");
}

static void vgroups(const char *path, int count)
{
    write_vgroups(path, count, 0);
}

static void vgroups_of_vdatas(const char *path, int count)
{
    write_vgroups(path, count, 4);
}

/* ---- The interfaces before (DFSD, DFR8, DFAN) ---- */

static void old_sets(const char *path, int count)
{
    int32 sizes[2] = {ROWS, COLUMNS};
    float32 numbers[POINTS] = {0};
    need(DFSDclear() != FAIL && DFSDsetNT(DFNT_FLOAT32) != FAIL && DFSDsetdims(2, sizes) != FAIL, "DFSDsetdims");
    for (int i = 0; i < count; i++) {
        numbers[0] = (float32)i;
        need(DFSDadddata(path, 2, sizes, numbers) != FAIL, "DFSDadddata");
    }
}

static void old_images(const char *path, int count)
{
    uint8 palette[PALETTE] = {1}, points[POINTS] = {0};
    need(DFR8setpalette(palette) != FAIL, "DFR8setpalette");
    for (int i = 0; i < count; i++) {
        points[0] = (uint8)i;
        need(DFR8addimage(path, points, COLUMNS, ROWS, COMP_NONE) != FAIL, "DFR8addimage");
    }
}

/* A label and a description for each of so many images. */
static void old_annotations(const char *path, int count)
{
    char text[NAME];
    old_images(path, count);
    need(DFR8restart() != FAIL, "DFR8restart");
    for (int i = 0; i < count; i++) {
        uint8 points[POINTS];
        need(DFR8getimage(path, points, COLUMNS, ROWS, NULL) != FAIL, "DFR8getimage");
        uint16 reference = (uint16)DFR8lastref();
        need(DFANputlabel(path, DFTAG_RIG, reference, name_of(text, "label", i)) != FAIL, "DFANputlabel");
        need(DFANputdesc(path, DFTAG_RIG, reference, name_of(text, "text", i), NAME / 2) != FAIL, "DFANputdesc");
    }
}

/* ---- Several interfaces in turn ---- */

static void mixed(const char *path, int count)
{
    write_sets(path, count, set_scales);
    int32 file = Hopen(path, DFACC_RDWR, 0);
    need(file != FAIL && Vstart(file) != FAIL, "Hopen of a file with data sets");
    for (int i = 0; i < count; i++)
        add_vgroup(file, i, 2);
    need(Vend(file) != FAIL, "Vend");
    add_images(file, count, set_palette);
    need(Hclose(file) != FAIL, "Hclose");

    file = SDstart(path, DFACC_WRITE);
    need(file != FAIL, "SDstart");
    for (int i = count; i < 2 * count; i++)
        add_set(file, i, set_attributes);
    need(SDend(file) != FAIL, "SDend");
}

const struct recipe interface_files[] = {
    {"sd_100", "SD, 100 data sets", BY_INTERFACE, sets, 100},
    {"sd_attributes_100", "SD, 100 with attributes", BY_INTERFACE, sets_attributes, 100},
    {"sd_chunked_100", "SD, 100 chunked", BY_INTERFACE, sets_chunked, 100},
    {"sd_compressed_100", "SD, 100 compressed", BY_INTERFACE, sets_compressed, 100},
    {"sd_scales_100", "SD, 100 with own dimensions and scales", BY_INTERFACE, sets_scales, 100},
    {"sd_shared_500", "SD, 500 with shared dimensions", BY_INTERFACE, sets_shared, 500},
    {"sd_many_chunks_50", "SD, 50 in 40 chunks each", BY_INTERFACE, sets_many_chunks, 50},
    {"sd_growing_100", "SD, 100 that grow by turns", BY_INTERFACE, sets_growing, 100},
    {"sd_reopened_200", "SD, reopened 200 times, a data set each time", BY_INTERFACE, sets_reopened, 200},
    {"gr_100", "GR, 100 images", BY_INTERFACE, images, 100},
    {"gr_palettes_100", "GR, 100 with palettes and attributes", BY_INTERFACE, images_palettes, 100},
    {"gr_reopened_100", "GR, reopened 100 times, an image each time", BY_INTERFACE, images_reopened, 100},
    {"vdata_1000", "V, 1,000 Vdatas", BY_INTERFACE, vdatas, 1000},
    {"vgroup_1000", "V, 1,000 Vgroups", BY_INTERFACE, vgroups, 1000},
    {"vgroup_of_vdata_400", "V, 400 Vgroups of 4 Vdatas each", BY_INTERFACE, vgroups_of_vdatas, 400},
    {"dfsd_100", "DFSD, 100 data sets", BY_INTERFACE, old_sets, 100},
    {"dfsd_500", "DFSD, 500 data sets", BY_INTERFACE, old_sets, 500},
    {"dfr8_100", "DFR8, 100 images", BY_INTERFACE, old_images, 100},
    {"dfr8_500", "DFR8, 500 images", BY_INTERFACE, old_images, 500},
    {"dfan_200", "DFR8 and DFAN, 200 images with a label and a description", BY_INTERFACE, old_annotations, 200},
    {"mixed_50", "SD, V, GR and SD again, 50 of each", BY_INTERFACE, mixed, 50},
    {0}};
