/* Writes the real files of this folder with the HDF4 library: one small file for each way of storing something.
 *
 *     cc make.c linked.c contents.c grids.c -I/usr/include/hdf -lmfhdf -ldf -ljpeg -lz -lm -o make
 *     ./make FOLDER
 */

#include <stddef.h>
#include <stdlib.h>
#include <string.h>
#include <unistd.h>

#include "make.h"

int32 need(long answer, const char *call, const char *file, int line)
{
    if (answer == FAIL) {
        fprintf(stderr, "%s:%d: %s\n", file, line, call);
        HEprint(stderr, 0);
        exit(1);
    }
    return (int32)answer;
}

/* ---- Sample data ---- */

uint8 bytes[4096];
static int32 numbers[256];
static uint8 palette[768];

static void fill_samples(void)
{
    for (int i = 0; i < COUNT(bytes); i++)
        bytes[i] = (uint8)(i * 7 + i / 32);
    for (int i = 0; i < COUNT(numbers); i++)
        numbers[i] = 1000 * i - 20000;
    for (int i = 0; i < COUNT(palette); i++)
        palette[i] = (uint8)(i / 3);
}

static const int32 number_types[] = {DFNT_CHAR8,  DFNT_UCHAR8, DFNT_INT8,   DFNT_UINT8,   DFNT_INT16,
                                     DFNT_UINT16, DFNT_INT32,  DFNT_UINT32, DFNT_FLOAT32, DFNT_FLOAT64};

static const char *type_names[] = {"char8", "uchar8", "int8",   "uint8",   "int16",
                                   "uint16", "int32", "uint32", "float32", "float64"};

/* Numbers of 1, 2, 4 and 8 bytes, by their bits: at the limits of a type, or of bytes that all differ. */
struct extreme {
    uint8 of_1;
    uint16 of_2;
    uint32 of_4;
    unsigned long long of_8;
};

static const struct extreme extremes[] = {
    {0x00, 0x0000, 0x00000000, 0x0000000000000000},
    {0x01, 0x0001, 0x00000001, 0x0000000000000001}, /* 1; the least float */
    {0x7f, 0x7fff, 0x7fffffff, 0x7fffffffffffffff}, /* the greatest signed number */
    {0x80, 0x8000, 0x80000000, 0x8000000000000000}, /* the least signed number; negative zero */
    {0xff, 0xffff, 0xffffffff, 0xffffffffffffffff}, /* -1; the greatest unsigned number */
    {0x12, 0x1234, 0x12345678, 0x123456789abcdef0}, /* all bytes differ */
    {0xfe, 0xfedc, 0xfedcba98, 0xfedcba9876543210}, /* all bytes differ, below 0 */
    {0x41, 0x00ff, 0x3f800000, 0x3ff0000000000000}, /* the float 1 */
    {0x5a, 0xff00, 0x7f7fffff, 0x7fefffffffffffff}, /* the greatest float */
    {0x20, 0x0080, 0x807fffff, 0x800fffffffffffff}, /* a subnormal float, below 0 */
    {0x0a, 0x0100, 0x7f800000, 0x7ff0000000000000}, /* infinity */
    {0x7e, 0x7f80, 0xff800000, 0xfff0000000000000}, /* negative infinity */
    {0x81, 0x807f, 0x7fc12345, 0x7ff8123456789abc}, /* a quiet NaN with a payload */
    {0xa5, 0xa55a, 0xffb54321, 0xfff7654321fedcba}, /* a signalling NaN with a payload */
};

/* Where an extreme has its bits of so many bytes. */
static const size_t places_of_bits[] = {
    [1] = offsetof(struct extreme, of_1),
    [2] = offsetof(struct extreme, of_2),
    [4] = offsetof(struct extreme, of_4),
    [8] = offsetof(struct extreme, of_8),
};

/* Puts so many extremes, from one on, as numbers of a type in memory; answers where they end. */
static uint8 *put_extremes(uint8 *place, int32 type, int first, int count)
{
    int size = NEED(DFKNTsize(type));
    for (int i = first; i < first + count; i++) {
        memcpy(place, (const uint8 *)&extremes[i % COUNT(extremes)] + places_of_bits[size], size);
        place += size;
    }
    return place;
}

/* ---- Attributes ---- */

/* A call that sets an attribute. */
typedef intn setter(int32 id, const char *name, int32 type, int32 count, const void *values);

/* Sets an attribute of each type with the low byte first. */
static void set_attributes(int32 id, setter *set)
{
    uint8 values[sizeof extremes];
    for (int i = 0; i < COUNT(number_types); i++) {
        put_extremes(values, number_types[i], i, COUNT(extremes));
        NEED(set(id, type_names[i], number_types[i] | DFNT_LITEND, COUNT(extremes), values));
    }
}

/* ---- Raw elements ---- */

int32 create(const char *name, int16 slots)
{
    return NEED(Hopen(name, DFACC_CREATE, slots));
}

void put(int32 file, uint16 tag, uint16 ref, int32 length)
{
    NEED(Hputelement(file, tag, ref, bytes, length));
}

static void empty(void)
{
    NEED(Hclose(create("empty.hdf", 0)));
}

static void elements(void)
{
    int32 file = create("elements.hdf", 0);
    for (uint16 ref = 1; ref <= 3; ref++) {
        put(file, 100, ref, 3);
        put(file, 200, ref, 10 * ref);
        put(file, 40000, ref, 1);
    }
    put(file, 16383, 65535, 5);
    put(file, 65535, 7, 6);
    NEED(Hclose(file));
}

static void many_elements(void)
{
    int32 file = create("many_elements.hdf", 0);
    for (uint16 ref = 1; ref <= 100; ref++)
        put(file, (uint16)(500 + ref % 7), ref, ref % 5 + 1);
    NEED(Hclose(file));
}

static void small_blocks(void)
{
    int32 file = create("small_blocks.hdf", 4);
    for (uint16 ref = 1; ref <= 50; ref++)
        put(file, 600, ref, 2);
    NEED(Hclose(file));
}

/* 257 blocks of four slots, all elements on the same byte. */
static void too_many_blocks(void)
{
    int32 file = create("too_many_blocks.hdf", 4);
    put(file, 600, 1, 1);
    for (uint16 ref = 2; ref <= 4 * 256; ref++)
        NEED(Hdupdd(file, 600, ref, 600, 1));
    NEED(Hclose(file));
}

static void deleted(void)
{
    int32 file = create("deleted.hdf", 0);
    for (uint16 ref = 1; ref <= 20; ref++)
        put(file, 700, ref, 4);
    for (uint16 ref = 2; ref <= 20; ref += 3)
        NEED(Hdeldd(file, 700, ref));
    put(file, 701, 1, 4);
    put(file, 700, 5, 8);
    NEED(Hclose(file));
}

static void shared_bytes(void)
{
    int32 file = create("shared_bytes.hdf", 0);
    put(file, 800, 1, 12);
    NEED(Hdupdd(file, 800, 2, 800, 1));
    NEED(Hdupdd(file, 801, 1, 800, 1));
    NEED(Hclose(file));
}

/* Tag 107 tells the machine by its reference and has no data of its own. */
static void machine_type(void)
{
    int32 file = create("machine_type.hdf", 0);
    put(file, 800, 1, 12);
    NEED(Hdupdd(file, DFTAG_MT, 0x4441, 800, 1));
    NEED(Hclose(file));
}

static void two_machine_types(void)
{
    int32 file = create("two_machine_types.hdf", 0);
    put(file, 800, 1, 12);
    NEED(Hdupdd(file, DFTAG_MT, 0x1111, 800, 1));
    NEED(Hdupdd(file, DFTAG_MT, 0x4441, 800, 1));
    NEED(Hclose(file));
}

/* Names an element in which nothing is stored. */
static void name_only(int32 file, uint16 tag, uint16 ref)
{
    NEED(Hendaccess(NEED(Hstartaccess(file, tag, ref, DFACC_WRITE))));
}

static void set_aside(void)
{
    int32 file = create("set_aside.hdf", 0);
    put(file, 900, 1, 5);
    name_only(file, 900, 2);
    NEED(Hclose(file));
}

static void set_aside_records(void)
{
    static const uint16 tags[] = {DFTAG_NT, DFTAG_ID, DFTAG_LD, DFTAG_MD, DFTAG_SDD, DFTAG_VG, DFTAG_VH};
    int32 file = create("set_aside_records.hdf", 0);
    for (int i = 0; i < COUNT(tags); i++)
        name_only(file, tags[i], 2);
    NEED(Hclose(file));
}

static void external(void)
{
    int32 file = create("external.hdf", 0);
    int32 element = NEED(HXcreate(file, 1200, 1, "external.dat", 0, 0));
    NEED(Hwrite(element, 64, bytes));
    NEED(Hendaccess(element));
    NEED(Hclose(file));
    unlink("external.dat");
}

static void compress_element(int32 file, uint16 ref, comp_coder_t coder, comp_info *info)
{
    model_info model;
    memset(&model, 0, sizeof model);
    int32 element = NEED(HCcreate(file, 1300, ref, COMP_MODEL_STDIO, &model, coder, info));
    NEED(Hwrite(element, 200, bytes));
    NEED(Hendaccess(element));
}

static void compressed(void)
{
    int32 file = create("compressed.hdf", 0);
    comp_info info;
    memset(&info, 0, sizeof info);
    compress_element(file, 1, COMP_CODE_NONE, &info);
    compress_element(file, 2, COMP_CODE_RLE, &info);
    info.skphuff.skp_size = 1;
    compress_element(file, 3, COMP_CODE_SKPHUFF, &info);
    info.deflate.level = 6;
    compress_element(file, 4, COMP_CODE_DEFLATE, &info);
    NEED(Hclose(file));
}

/* ---- Scientific data sets ---- */

int32 sd_create(const char *name)
{
    return NEED(SDstart(name, DFACC_CREATE));
}

static void sd_write(int32 set, int32 count)
{
    int32 start = 0;
    NEED(SDwritedata(set, &start, NULL, &count, bytes));
}

static void sds_types(void)
{
    int32 file = sd_create("sds_types.hdf");
    int32 size = 6;
    for (int i = 0; i < COUNT(number_types); i++) {
        int32 set = NEED(SDcreate(file, type_names[i], number_types[i], 1, &size));
        sd_write(set, size);
        NEED(SDendaccess(set));
    }
    NEED(SDend(file));
}

static void sds_little_endian(void)
{
    int32 file = sd_create("sds_little_endian.hdf");
    int32 types[] = {DFNT_LINT16, DFNT_LUINT16, DFNT_LINT32, DFNT_LFLOAT32, DFNT_LFLOAT64};
    int32 size = 5;
    for (int i = 0; i < COUNT(types); i++) {
        int32 set = NEED(SDcreate(file, "low byte first", types[i], 1, &size));
        sd_write(set, size);
        NEED(SDendaccess(set));
    }
    NEED(SDend(file));
}

static void sds_ranks(void)
{
    int32 file = sd_create("sds_ranks.hdf");
    int32 sizes[] = {3, 4, 2, 2};
    int32 start[] = {0, 0, 0, 0};
    const char *names[] = {"line", "plane", "space", "time"};
    for (int rank = 1; rank <= 4; rank++) {
        int32 set = NEED(SDcreate(file, names[rank - 1], DFNT_INT32, rank, sizes));
        NEED(SDwritedata(set, start, NULL, sizes, numbers));
        NEED(SDsetdimname(NEED(SDgetdimid(set, rank - 1)), names[rank - 1]));
        NEED(SDendaccess(set));
    }
    NEED(SDend(file));
}

static void sds_attributes(void)
{
    int32 file = sd_create("sds_attributes.hdf");
    int32 sizes[] = {3, 4}, start[] = {0, 0}, low = -5, high = 5, fill = -1;
    int32 set = NEED(SDcreate(file, "grid", DFNT_INT32, 2, sizes));
    int32 dimension = NEED(SDgetdimid(set, 0));
    NEED(SDsetattr(file, "title", DFNT_CHAR8, 5, "roads"));
    NEED(SDsetattr(set, "weights", DFNT_INT32, 3, numbers));
    NEED(SDsetdatastrs(set, "label", "unit", "format", "polar"));
    NEED(SDsetcal(set, 0.5, 0.1, 2.0, 0.2, DFNT_INT16));
    NEED(SDsetrange(set, &high, &low));
    NEED(SDsetfillvalue(set, &fill));
    NEED(SDwritedata(set, start, NULL, sizes, numbers));
    NEED(SDsetdimname(dimension, "row"));
    NEED(SDsetdimstrs(dimension, "row", "m", "I5"));
    NEED(SDsetdimscale(dimension, 3, DFNT_INT32, numbers));
    NEED(SDsetattr(dimension, "step", DFNT_INT32, 1, numbers));
    NEED(SDendaccess(set));
    NEED(SDend(file));
}

/* Attributes of a file, a set and a dimension. The library keeps range and fill value as attributes too. */
static void sds_little_endian_attributes(void)
{
    int32 file = sd_create("sds_little_endian_attributes.hdf");
    int32 size = 3, low = -5, high = 5, fill = -1;
    int32 set = NEED(SDcreate(file, "low byte first", DFNT_LINT32, 1, &size));
    int32 dimension = NEED(SDgetdimid(set, 0));
    set_attributes(file, SDsetattr);
    set_attributes(set, SDsetattr);
    NEED(SDsetrange(set, &high, &low));
    NEED(SDsetfillvalue(set, &fill));
    NEED(SDsetdimscale(dimension, size, DFNT_LINT16, bytes));
    set_attributes(dimension, SDsetattr);
    sd_write(set, size);
    NEED(SDendaccess(set));
    NEED(SDend(file));
}

static void sds_unwritten(void)
{
    int32 file = sd_create("sds_unwritten.hdf");
    int32 sizes[] = {3, 4};
    NEED(SDendaccess(NEED(SDcreate(file, "later", DFNT_INT16, 2, sizes))));
    NEED(SDend(file));
}

/* Writes the first two of six rows and fills none. */
static void write_first_rows(int32 file, int32 index)
{
    int32 start[] = {0, 0}, count[] = {2, 4};
    int32 set = NEED(SDselect(file, index));
    NEED(SDsetfillmode(file, SD_NOFILL));
    NEED(SDwritedata(set, start, NULL, count, bytes));
    NEED(SDendaccess(set));
}

/* Where the rows are written when the set is made, the element gets its whole length. Where they are written when the file is
 * opened again, it ends with them. */
static void sds_partly_written(void)
{
    int32 file = sd_create("sds_partly_written.hdf");
    int32 sizes[] = {6, 4};
    NEED(SDendaccess(NEED(SDcreate(file, "at once", DFNT_INT16, 2, sizes))));
    NEED(SDendaccess(NEED(SDcreate(file, "later", DFNT_INT16, 2, sizes))));
    write_first_rows(file, 0);
    NEED(SDend(file));
    file = NEED(SDstart("sds_partly_written.hdf", DFACC_RDWR));
    write_first_rows(file, 1);
    NEED(SDend(file));
}

/* Floats of all kinds. */
static void sds_infinity(void)
{
    int32 file = sd_create("sds_infinity.hdf");
    int32 types[] = {DFNT_FLOAT32, DFNT_FLOAT64};
    int32 size = COUNT(extremes), start = 0;
    uint8 values[sizeof extremes];
    for (int i = 0; i < COUNT(types); i++) {
        int32 set = NEED(SDcreate(file, i ? "64 bits" : "32 bits", types[i], 1, &size));
        put_extremes(values, types[i], 0, size);
        NEED(SDwritedata(set, &start, NULL, &size, values));
        NEED(SDendaccess(set));
    }
    NEED(SDend(file));
}

static void sds_compressed(const char *name, comp_coder_t coder, int setting)
{
    int32 file = sd_create(name);
    int32 sizes[] = {16, 16}, start[] = {0, 0};
    comp_info info;
    memset(&info, 0, sizeof info);
    if (coder == COMP_CODE_DEFLATE)
        info.deflate.level = setting;
    else
        info.skphuff.skp_size = setting;
    int32 set = NEED(SDcreate(file, "packed", DFNT_INT32, 2, sizes));
    NEED(SDsetcompress(set, coder, &info));
    NEED(SDwritedata(set, start, NULL, sizes, numbers));
    NEED(SDendaccess(set));
    NEED(SDend(file));
}

static void sds_nbit(void)
{
    int32 file = sd_create("sds_nbit.hdf");
    int32 size = 64;
    int32 set = NEED(SDcreate(file, "few bits", DFNT_INT32, 1, &size));
    NEED(SDsetnbitdataset(set, 9, 10, FALSE, FALSE));
    sd_write(set, size);
    NEED(SDendaccess(set));
    NEED(SDend(file));
}

static void sds_chunked(const char *name, int32 flags)
{
    int32 file = sd_create(name);
    int32 sizes[] = {8, 8}, start[] = {0, 0};
    HDF_CHUNK_DEF chunk;
    memset(&chunk, 0, sizeof chunk);
    for (int i = 0; i < 2; i++)
        chunk.comp.chunk_lengths[i] = 4;
    if (flags & HDF_COMP) {
        chunk.comp.comp_type = COMP_CODE_DEFLATE;
        chunk.comp.cinfo.deflate.level = 6;
    }
    int32 set = NEED(SDcreate(file, "chunks", DFNT_INT32, 2, sizes));
    NEED(SDsetchunk(set, chunk, flags));
    NEED(SDwritedata(set, start, NULL, sizes, numbers));
    NEED(SDendaccess(set));
    NEED(SDend(file));
}

static void sds_external(void)
{
    int32 file = sd_create("sds_external.hdf");
    int32 size = 20;
    int32 set = NEED(SDcreate(file, "elsewhere", DFNT_INT16, 1, &size));
    NEED(SDsetexternalfile(set, "sds_external.dat", 0));
    sd_write(set, size);
    NEED(SDendaccess(set));
    NEED(SDend(file));
    unlink("sds_external.dat");
}

/* The older interface for scientific data. */
static void dfsd(void)
{
    int32 sizes[] = {4, 5};
    int32 range[] = {-100, 100};
    NEED(DFSDsetdims(2, sizes));
    NEED(DFSDsetNT(DFNT_INT32));
    NEED(DFSDsetdatastrs("height", "m", "I5", "cartesian"));
    NEED(DFSDsetdimstrs(1, "row", "km", "I3"));
    NEED(DFSDsetdimscale(1, 4, numbers));
    NEED(DFSDsetdimscale(2, 5, numbers));
    NEED(DFSDsetrange(range + 1, range));
    NEED(DFSDputdata("dfsd.hdf", 2, sizes, numbers));
    NEED(DFSDclear());
    NEED(DFSDsetdims(2, sizes));
    NEED(DFSDsetNT(DFNT_UINT8));
    NEED(DFSDadddata("dfsd.hdf", 2, sizes, bytes));
}

/* ---- Vdatas and Vgroups ---- */

int32 v_create(const char *name)
{
    int32 file = create(name, 0);
    NEED(Vstart(file));
    return file;
}

int32 v_open(const char *name)
{
    int32 file = NEED(Hopen(name, DFACC_RDWR, 0));
    NEED(Vstart(file));
    return file;
}

void v_close(int32 file)
{
    NEED(Vend(file));
    NEED(Hclose(file));
}

static int32 vdata_create(int32 file, const char *name, const char *class)
{
    int32 vdata = NEED(VSattach(file, -1, "w"));
    NEED(VSsetname(vdata, name));
    NEED(VSsetclass(vdata, class));
    return vdata;
}

/* A Vdata of each type with these flags, of one field. */
static void type_vdatas(int32 file, int32 flags)
{
    for (int i = 0; i < COUNT(number_types); i++) {
        int32 vdata = vdata_create(file, type_names[i], "types");
        NEED(VSfdefine(vdata, "value", number_types[i] | flags, 1));
        NEED(VSsetfields(vdata, "value"));
        NEED(VSwrite(vdata, bytes, 4, FULL_INTERLACE));
        NEED(VSdetach(vdata));
    }
}

static void vdata_types(void)
{
    int32 file = v_create("vdata_types.hdf");
    type_vdatas(file, 0);
    v_close(file);
}

/* Types in the order of the machine, without and with the flag for the low byte first. */
static void vdata_native(void)
{
    int32 file = v_create("vdata_native.hdf");
    type_vdatas(file, DFNT_NATIVE);
    type_vdatas(file, DFNT_NATIVE | DFNT_LITEND);
    v_close(file);
}

int32 road_vdata(int32 file, const char *name, int32 interlace, int32 type)
{
    int32 vdata = vdata_create(file, name, "roads");
    NEED(VSsetinterlace(vdata, interlace));
    NEED(VSfdefine(vdata, "row", type, 1));
    NEED(VSfdefine(vdata, "col", type, 1));
    NEED(VSfdefine(vdata, "road", type, 1));
    NEED(VSsetfields(vdata, "row,col,road"));
    NEED(VSwrite(vdata, bytes, 7, FULL_INTERLACE));
    return vdata;
}

static void vdata_interlaces(void)
{
    int32 file = v_create("vdata_interlaces.hdf");
    NEED(VSdetach(road_vdata(file, "by record", FULL_INTERLACE, DFNT_UINT32)));
    NEED(VSdetach(road_vdata(file, "by field", NO_INTERLACE, DFNT_UINT32)));
    NEED(VSdetach(road_vdata(file, "low byte first", FULL_INTERLACE, DFNT_LUINT32)));
    v_close(file);
}

/* A Vdata with a field of each type, with the first of the flags and the second in turn. */
struct shape {
    const char *name;
    int32 interlace, order, flags[2];
};

static int32 shaped_vdata(int32 file, const struct shape *shape)
{
    int32 vdata = vdata_create(file, shape->name, "extremes");
    char fields[128] = "";
    NEED(VSsetinterlace(vdata, shape->interlace));
    for (int i = 0; i < COUNT(number_types); i++) {
        NEED(VSfdefine(vdata, type_names[i], number_types[i] | shape->flags[i % 2], shape->order));
        strcat(strcat(fields, i > 0 ? "," : ""), type_names[i]);
    }
    NEED(VSsetfields(vdata, fields));
    return vdata;
}

/* Writes so many records, from an extreme on. Where they are as many as the extremes, each field gets each of these. */
static void write_extremes(int32 vdata, const struct shape *shape, int first, int count)
{
    uint8 records[3 * COUNT(number_types) * sizeof extremes], *place = records;
    for (int record = first; record < first + count; record++)
        for (int i = 0; i < COUNT(number_types); i++)
            place = put_extremes(place, number_types[i], record + i, shape->order);
    NEED(VSwrite(vdata, records, count, FULL_INTERLACE));
}

static void vdata_little_endian(void)
{
    static const struct shape shapes[] = {
        {"low by record", FULL_INTERLACE, 1, {DFNT_LITEND, DFNT_LITEND}},
        {"low by field", NO_INTERLACE, 1, {DFNT_LITEND, DFNT_LITEND}},
        {"low by record, threes", FULL_INTERLACE, 3, {DFNT_LITEND, DFNT_LITEND}},
        {"low by field, threes", NO_INTERLACE, 3, {DFNT_LITEND, DFNT_LITEND}},
        {"low and high by record", FULL_INTERLACE, 1, {DFNT_LITEND, 0}},
        {"low and high by field", NO_INTERLACE, 1, {DFNT_LITEND, 0}},
        {"high and low by record, threes", FULL_INTERLACE, 3, {0, DFNT_LITEND}},
        {"high and low by field, threes", NO_INTERLACE, 3, {0, DFNT_LITEND}},
    };
    int32 file = v_create("vdata_little_endian.hdf");
    type_vdatas(file, DFNT_LITEND);
    for (int i = 0; i < COUNT(shapes); i++) {
        int32 vdata = shaped_vdata(file, &shapes[i]);
        write_extremes(vdata, &shapes[i], 0, COUNT(extremes));
        NEED(VSdetach(vdata));
    }
    v_close(file);
}

/* Two Vdatas made without records, which are written when the file is opened again. The second one grows at the end of the
 * file and stays plain, then the first one grows in linked blocks, and last some records of the second are written anew. */
static void vdata_little_endian_grown(void)
{
    static const struct shape shapes[] = {{"in blocks", FULL_INTERLACE, 1, {DFNT_LITEND, DFNT_LITEND}},
                                          {"plain", FULL_INTERLACE, 1, {DFNT_LITEND, 0}}};
    static const struct {
        int vdata, record, count;
    } parts[] = {{0, 0, 5}, {1, 0, 5}, {1, 4, 9}, {0, 5, 9}, {1, 2, 3}};
    int32 refs[COUNT(shapes)];
    int32 file = v_create("vdata_little_endian_grown.hdf");
    for (int i = 0; i < COUNT(shapes); i++) {
        int32 vdata = shaped_vdata(file, &shapes[i]);
        refs[i] = NEED(VSQueryref(vdata));
        NEED(VSdetach(vdata));
    }
    v_close(file);
    for (int i = 0; i < COUNT(parts); i++) {
        file = v_open("vdata_little_endian_grown.hdf");
        int32 vdata = NEED(VSattach(file, refs[parts[i].vdata], "w"));
        NEED(VSsetblocksize(vdata, 64));
        NEED(VSseek(vdata, parts[i].record));
        write_extremes(vdata, &shapes[parts[i].vdata], parts[i].record + i, parts[i].count);
        NEED(VSdetach(vdata));
        v_close(file);
    }
}

static void vdata_fields(void)
{
    int32 file = v_create("vdata_fields.hdf");
    int32 vdata = vdata_create(file, "stations", "mixed");
    NEED(VSfdefine(vdata, "name", DFNT_CHAR8, 12));
    NEED(VSfdefine(vdata, "place", DFNT_FLOAT32, 3));
    NEED(VSfdefine(vdata, "count", DFNT_INT16, 1));
    NEED(VSfdefine(vdata, "sum", DFNT_FLOAT64, 2));
    NEED(VSsetfields(vdata, "name,place,count,sum"));
    NEED(VSwrite(vdata, bytes, 5, FULL_INTERLACE));
    NEED(VSdetach(vdata));
    v_close(file);
}

static void vdata_attributes(void)
{
    int32 file = v_create("vdata_attributes.hdf");
    int32 vdata = road_vdata(file, "noted", FULL_INTERLACE, DFNT_UINT32);
    NEED(VSsetattr(vdata, _HDF_VDATA, "source", DFNT_CHAR8, 6, "survey"));
    NEED(VSsetattr(vdata, 1, "offsets", DFNT_INT32, 2, numbers));
    NEED(VSdetach(vdata));
    v_close(file);
}

static intn set_own(int32 vdata, const char *name, int32 type, int32 count, const void *values)
{
    return VSsetattr(vdata, _HDF_VDATA, name, type, count, values);
}

static intn set_of_field(int32 vdata, const char *name, int32 type, int32 count, const void *values)
{
    return VSsetattr(vdata, 1, name, type, count, values);
}

static void vdata_little_endian_attributes(void)
{
    int32 file = v_create("vdata_little_endian_attributes.hdf");
    int32 vdata = road_vdata(file, "noted", FULL_INTERLACE, DFNT_LUINT32);
    set_attributes(vdata, set_own);
    set_attributes(vdata, set_of_field);
    NEED(VSdetach(vdata));
    v_close(file);
}

static void vdata_empty(void)
{
    int32 file = v_create("vdata_empty.hdf");
    int32 vdata = vdata_create(file, "none", "empty");
    NEED(VSfdefine(vdata, "value", DFNT_INT32, 1));
    NEED(VSsetfields(vdata, "value"));
    NEED(VSdetach(vdata));
    v_close(file);
}

/* The values of a Vdata are deleted, and their element is named again: there are seven records, and nothing is stored. */
static void vdata_set_aside(void)
{
    int32 file = v_create("vdata_set_aside.hdf");
    int32 vdata = road_vdata(file, "set aside", FULL_INTERLACE, DFNT_UINT32);
    uint16 ref = (uint16)NEED(VSQueryref(vdata));
    NEED(VSdetach(vdata));
    NEED(Hdeldd(file, DFTAG_VS, ref));
    name_only(file, DFTAG_VS, ref);
    v_close(file);
}

static int32 group_create(int32 file, const char *name)
{
    int32 group = NEED(Vattach(file, -1, "w"));
    NEED(Vsetname(group, name));
    NEED(Vsetclass(group, "group"));
    return group;
}

static void vgroups(void)
{
    int32 file = v_create("vgroups.hdf");
    int32 top = group_create(file, "top");
    int32 left = group_create(file, "left");
    int32 right = group_create(file, "right");
    int32 vdata = road_vdata(file, "member", FULL_INTERLACE, DFNT_UINT32);
    put(file, 1500, 1, 10);
    NEED(Vinsert(top, left));
    NEED(Vinsert(top, right));
    NEED(Vinsert(left, vdata));
    NEED(Vaddtagref(right, 1500, 1));
    NEED(Vaddtagref(right, 1500, 2));
    NEED(VSdetach(vdata));
    NEED(Vdetach(right));
    NEED(Vdetach(left));
    NEED(Vdetach(top));
    v_close(file);
}

static void vgroups_deep(void)
{
    int32 file = v_create("vgroups_deep.hdf");
    int32 outer = group_create(file, "level 1");
    for (int level = 2; level <= 18; level++) {
        char name[16];
        snprintf(name, sizeof name, "level %d", level);
        int32 inner = group_create(file, name);
        NEED(Vinsert(outer, inner));
        NEED(Vdetach(outer));
        outer = inner;
    }
    NEED(Vdetach(outer));
    v_close(file);
}

static void vgroup_attributes(void)
{
    int32 file = v_create("vgroup_attributes.hdf");
    int32 group = group_create(file, "noted");
    int32 old = vdata_create(file, "hung the old way", _HDF_ATTRIBUTE);
    NEED(Vsetattr(group, "season", DFNT_CHAR8, 6, "winter"));
    NEED(VSfdefine(old, "VALUES", DFNT_INT32, 1));
    NEED(VSsetfields(old, "VALUES"));
    NEED(VSwrite(old, bytes, 3, FULL_INTERLACE));
    NEED(Vinsert(group, old));
    NEED(VSdetach(old));
    NEED(Vdetach(group));
    v_close(file);
}

static void vgroup_little_endian_attributes(void)
{
    int32 file = v_create("vgroup_little_endian_attributes.hdf");
    int32 group = group_create(file, "noted");
    set_attributes(group, Vsetattr);
    NEED(Vdetach(group));
    v_close(file);
}

/* ---- Images, palettes and annotations ---- */

static void gr_image(int32 gr, const char *name, int32 components, int32 interlace, int32 x, int32 y)
{
    int32 sizes[] = {x, y}, start[] = {0, 0};
    int32 image = NEED(GRcreate(gr, name, components, DFNT_UINT8, interlace, sizes));
    NEED(GRwriteimage(image, start, NULL, sizes, bytes));
    NEED(GRendaccess(image));
}

static void gr_8_bit(void)
{
    int32 file = create("gr_8_bit.hdf", 0);
    int32 gr = NEED(GRstart(file));
    int32 sizes[] = {10, 8}, start[] = {0, 0};
    int32 image = NEED(GRcreate(gr, "grey", 1, DFNT_UINT8, MFGR_INTERLACE_PIXEL, sizes));
    NEED(GRwriteimage(image, start, NULL, sizes, bytes));
    NEED(GRwritelut(NEED(GRgetlutid(image, 0)), 3, DFNT_UINT8, MFGR_INTERLACE_PIXEL, 256, palette));
    NEED(GRsetattr(image, "sensor", DFNT_CHAR8, 4, "eyes"));
    NEED(GRendaccess(image));
    NEED(GRend(gr));
    NEED(Hclose(file));
}

static void gr_24_bit(void)
{
    int32 file = create("gr_24_bit.hdf", 0);
    int32 gr = NEED(GRstart(file));
    gr_image(gr, "by pixel", 3, MFGR_INTERLACE_PIXEL, 6, 5);
    gr_image(gr, "by line", 3, MFGR_INTERLACE_LINE, 6, 5);
    gr_image(gr, "by plane", 3, MFGR_INTERLACE_COMPONENT, 6, 5);
    NEED(GRend(gr));
    NEED(Hclose(file));
}

static void gr_little_endian_attributes(void)
{
    int32 file = create("gr_little_endian_attributes.hdf", 0);
    int32 gr = NEED(GRstart(file));
    int32 sizes[] = {6, 5}, start[] = {0, 0};
    int32 image = NEED(GRcreate(gr, "noted", 1, DFNT_UINT8, MFGR_INTERLACE_PIXEL, sizes));
    NEED(GRwriteimage(image, start, NULL, sizes, bytes));
    set_attributes(image, GRsetattr);
    set_attributes(gr, GRsetattr);
    NEED(GRendaccess(image));
    NEED(GRend(gr));
    NEED(Hclose(file));
}

static void gr_compressed(void)
{
    int32 file = create("gr_compressed.hdf", 0);
    int32 gr = NEED(GRstart(file));
    int32 sizes[] = {16, 16}, start[] = {0, 0};
    comp_coder_t coders[] = {COMP_CODE_RLE, COMP_CODE_DEFLATE, COMP_CODE_JPEG};
    for (int i = 0; i < COUNT(coders); i++) {
        comp_info info;
        memset(&info, 0, sizeof info);
        if (coders[i] == COMP_CODE_DEFLATE)
            info.deflate.level = 6;
        if (coders[i] == COMP_CODE_JPEG)
            info.jpeg.quality = 75;
        int32 image = NEED(GRcreate(gr, "packed", 1, DFNT_UINT8, MFGR_INTERLACE_PIXEL, sizes));
        NEED(GRsetcompress(image, coders[i], &info));
        NEED(GRwriteimage(image, start, NULL, sizes, bytes));
        NEED(GRendaccess(image));
    }
    NEED(GRend(gr));
    NEED(Hclose(file));
}

static void raster_8(void)
{
    comp_info info;
    memset(&info, 0, sizeof info);
    info.jpeg.quality = 75;
    NEED(DFR8setpalette(palette));
    NEED(DFR8putimage("raster_8.hdf", bytes, 12, 10, COMP_NONE));
    NEED(DFR8addimage("raster_8.hdf", bytes, 12, 10, COMP_RLE));
    NEED(DFR8setcompress(COMP_JPEG, &info));
    NEED(DFR8addimage("raster_8.hdf", bytes, 16, 16, COMP_JPEG));
    NEED(DFR8setpalette(NULL));
}

static void raster_24(void)
{
    NEED(DF24setil(DFIL_PIXEL));
    NEED(DF24putimage("raster_24.hdf", bytes, 8, 6));
    NEED(DF24setil(DFIL_PLANE));
    NEED(DF24addimage("raster_24.hdf", bytes, 8, 6));
}

static void palettes(void)
{
    NEED(DFPputpal("palettes.hdf", palette, 0, "w"));
    memset(palette, 9, 100);
    NEED(DFPaddpal("palettes.hdf", palette));
}

static void annotations(void)
{
    int32 file = create("annotations.hdf", 0);
    put(file, 1600, 1, 20);
    NEED(DFANaddfid(file, "a label of the file"));
    NEED(DFANaddfds(file, "a description of the file", 25));
    NEED(Hclose(file));
    NEED(DFANputlabel("annotations.hdf", 1600, 1, "a label of an element"));
    NEED(DFANputdesc("annotations.hdf", 1600, 1, "a description of an element", 27));
}

static void annotation(int32 note, const char *text)
{
    NEED(ANwriteann(note, text, (int32)strlen(text)));
    NEED(ANendaccess(note));
}

static void annotations_many(void)
{
    int32 file = create("annotations_many.hdf", 0);
    int32 an = NEED(ANstart(file));
    put(file, 1600, 1, 20);
    for (int i = 0; i < 4; i++) {
        annotation(NEED(ANcreatef(an, AN_FILE_LABEL)), "file label");
        annotation(NEED(ANcreatef(an, AN_FILE_DESC)), "file description");
        annotation(NEED(ANcreate(an, 1600, 1, AN_DATA_LABEL)), "element label");
        annotation(NEED(ANcreate(an, 1600, 1, AN_DATA_DESC)), "element description");
    }
    NEED(ANend(an));
    NEED(Hclose(file));
}

/* Two images of one name, and two by the older interface, of which the first has the reference of an image's Vgroup. */
static void gr_and_raster(void)
{
    const char *name = "gr_and_raster.hdf";
    int32 file = create(name, 0);
    int32 gr = NEED(GRstart(file));
    gr_image(gr, "twice", 1, MFGR_INTERLACE_PIXEL, 4, 3);
    gr_image(gr, "twice", 1, MFGR_INTERLACE_PIXEL, 5, 2);
    NEED(GRend(gr));
    NEED(Hclose(file));
    NEED(DFR8writeref(name, 3));
    NEED(DFR8addimage(name, bytes + 100, 3, 4, COMP_NONE));
    NEED(DFR8addimage(name, bytes + 200, 2, 6, COMP_NONE));
}

/* One file written through several interfaces in turn. */
static void mixed(void)
{
    NEED(DFR8putimage("mixed.hdf", bytes, 9, 7, COMP_NONE));
    int32 sd = NEED(SDstart("mixed.hdf", DFACC_RDWR));
    int32 size = 9;
    int32 set = NEED(SDcreate(sd, "series", DFNT_FLOAT32, 1, &size));
    sd_write(set, size);
    NEED(SDendaccess(set));
    NEED(SDend(sd));
    int32 file = v_open("mixed.hdf");
    NEED(VSdetach(road_vdata(file, "roads", FULL_INTERLACE, DFNT_UINT32)));
    put(file, 1700, 1, 11);
    put(file, 1700, 2, 11);
    NEED(Hdeldd(file, 1700, 1));
    v_close(file);
}

int main(int count, char **arguments)
{
    if (count != 2 || chdir(arguments[1]) != 0) {
        fprintf(stderr, "make FOLDER\n");
        return 1;
    }
    fill_samples();
    empty();
    elements();
    many_elements();
    small_blocks();
    too_many_blocks();
    deleted();
    shared_bytes();
    machine_type();
    two_machine_types();
    set_aside();
    set_aside_records();
    external();
    compressed();
    sds_types();
    sds_little_endian();
    sds_ranks();
    sds_attributes();
    sds_little_endian_attributes();
    sds_unwritten();
    sds_compressed("sds_deflate.hdf", COMP_CODE_DEFLATE, 6);
    sds_compressed("sds_rle.hdf", COMP_CODE_RLE, 0);
    sds_compressed("sds_skphuff.hdf", COMP_CODE_SKPHUFF, 4);
    sds_nbit();
    sds_chunked("sds_chunked.hdf", HDF_CHUNK);
    sds_chunked("sds_chunked_deflate.hdf", HDF_CHUNK | HDF_COMP);
    sds_external();
    dfsd();
    vdata_types();
    vdata_native();
    vdata_interlaces();
    vdata_little_endian();
    vdata_little_endian_grown();
    vdata_fields();
    vdata_attributes();
    vdata_little_endian_attributes();
    vdata_empty();
    vdata_set_aside();
    vgroups();
    vgroups_deep();
    vgroup_attributes();
    vgroup_little_endian_attributes();
    gr_8_bit();
    gr_24_bit();
    gr_little_endian_attributes();
    gr_compressed();
    raster_8();
    raster_24();
    palettes();
    annotations();
    annotations_many();
    mixed();
    linked_files();
    /* The last bits of a compressed element are what memory held before: a file that is added comes behind the others. */
    sds_partly_written();
    sds_infinity();
    gr_and_raster();
    record_contents();
    record_grids();
    return 0;
}
