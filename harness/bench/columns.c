/* The table of columns of a Vdata: all values of one field. */
#include <stdio.h>
#include <stdlib.h>
#include <string.h>

#include "bench.h"
#include "hdf.h"
#include "hdf4.h"

enum { RECORDS = 10000, MOST_FIELDS = 3, MOST_WIDTH = 8 };

/* A type of numbers: its code, its name, the bytes of a number, and its kind as our library names it. */
struct type {
    int32 code;
    const char *name;
    int width;
    enum hdf4_kind kind;
};

static const struct type types[] = {{DFNT_INT8, "int8", 1, HDF4_SIGNED},
                                    {DFNT_INT16, "int16", 2, HDF4_SIGNED},
                                    {DFNT_INT32, "int32", 4, HDF4_SIGNED},
                                    {DFNT_FLOAT32, "float32", 4, HDF4_FLOAT32},
                                    {DFNT_FLOAT64, "float64", 8, HDF4_FLOAT64},
                                    {DFNT_LINT32, "int32, low byte first", 4, HDF4_SIGNED},
                                    {DFNT_LFLOAT32, "float32, low byte first", 4, HDF4_FLOAT32},
                                    {DFNT_LFLOAT64, "float64, low byte first", 8, HDF4_FLOAT64}};

/* How a Vdata is made up: its fields, all of one type, and whether values stand by record or by field. */
struct makeup {
    int fields;
    int32 interlace;
    const char *words;
};

static const struct makeup makeups[] = {
    {1, FULL_INTERLACE, "by record"}, {3, FULL_INTERLACE, "by record"}, {3, NO_INTERLACE, "by field"}};

static const char *const field_names[MOST_FIELDS] = {"a", "b", "c"};

/* ---- Values ---- */

/* Writes the value of a record's field as C has it. */
static void put_value(uint8_t *at, const struct type *type, int record, int field)
{
    int32_t number = (int32_t)((uint32_t)record * 2654435761u + (uint32_t)field);
    int8_t byte = (int8_t)(number >> 24);
    int16_t half = (int16_t)(number >> 16);
    float single = (float)number / 16;
    double wide = (double)number / 16;
    if (type->kind == HDF4_FLOAT32)
        memcpy(at, &single, sizeof single);
    else if (type->kind == HDF4_FLOAT64)
        memcpy(at, &wide, sizeof wide);
    else if (type->width == 1)
        memcpy(at, &byte, sizeof byte);
    else if (type->width == 2)
        memcpy(at, &half, sizeof half);
    else
        memcpy(at, &number, sizeof number);
}

/* The value's bits, as our library gives them, from what C has. */
static uint64_t bits_of(const uint8_t *at, const struct type *type)
{
    uint64_t bits = 0;
    memcpy(&bits, at, (size_t)type->width); /* low byte first, as this machine has it */
    uint64_t sign = (uint64_t)1 << (8 * type->width - 1);
    return type->kind == HDF4_SIGNED ? (bits ^ sign) - sign : bits;
}

/* ---- A file of one Vdata ---- */

struct reading {
    struct file file;
    const struct type *type;
    const struct makeup *makeup;
    int field;            /* which one is read */
    uint16_t reference;   /* of the Vdata */
    char open_path[4200]; /* a copy that stays open */
    int32 open_id;
    uint8_t *room;        /* for the file */
    uint64_t ours[RECORDS];
    uint8_t theirs[RECORDS * MOST_WIDTH];
};

/* The names of the fields, with commas between them. */
static void join_names(char *names, int fields)
{
    names[0] = 0;
    for (int i = 0; i < fields; i++) {
        strcat(names, i > 0 ? "," : "");
        strcat(names, field_names[i]);
    }
}

/* Memory with all records, record by record. */
static uint8_t *new_records(const struct reading *r)
{
    int fields = r->makeup->fields, width = r->type->width;
    uint8_t *records = malloc((size_t)(RECORDS * fields * width));
    need(records != NULL, "memory for records");
    for (int i = 0; i < RECORDS; i++)
        for (int field = 0; field < fields; field++)
            put_value(records + (i * fields + field) * width, r->type, i, field);
    return records;
}

static void write_vdata(struct reading *r)
{
    char names[2 * MOST_FIELDS];
    uint8_t *records = new_records(r);
    int32 id = Hopen(r->file.path, DFACC_CREATE, 0);
    need(id != FAIL && Vstart(id) != FAIL, "Vstart");
    int32 vdata = VSattach(id, -1, "w");
    need(vdata != FAIL && VSsetinterlace(vdata, r->makeup->interlace) != FAIL, "VSsetinterlace");
    for (int i = 0; i < r->makeup->fields; i++)
        need(VSfdefine(vdata, field_names[i], r->type->code, 1) != FAIL, "VSfdefine");
    join_names(names, r->makeup->fields);
    need(VSsetfields(vdata, names) != FAIL, "VSsetfields");
    need(VSwrite(vdata, records, RECORDS, FULL_INTERLACE) == RECORDS, "VSwrite");
    r->reference = (uint16_t)VSQueryref(vdata);
    need(VSdetach(vdata) != FAIL && Vend(id) != FAIL && Hclose(id) != FAIL, "Hclose");
    free(records);
}

/* ---- The calls ---- */

static void column_ours(void *context, int round)
{
    struct reading *r = context;
    (void)round;
    hdf4_column_answer column =
        hdf4_read_column(r->file.buffer, r->file.length, r->reference, (uint64_t)r->field, 0, r->ours, RECORDS);
    need(column.number == 0 && column.records == RECORDS && column.kind == r->type->kind, "hdf4_read_column");
}

static void read_alone(void *context, int round)
{
    struct reading *r = context;
    (void)round;
    need(read_file(r->file.path, r->room, r->file.capacity) == r->file.length, "the bytes of a file");
}

static void column_from(int32 id, struct reading *r)
{
    int32 vdata = VSattach(id, r->reference, "r");
    need(vdata != FAIL && VSsetfields(vdata, field_names[r->field]) != FAIL, "VSsetfields");
    need(VSread(vdata, r->theirs, RECORDS, FULL_INTERLACE) == RECORDS, "VSread");
    need(VSdetach(vdata) != FAIL, "VSdetach");
}

static void column_theirs_open(void *context, int round)
{
    struct reading *r = context;
    (void)round;
    column_from(r->open_id, r);
}

static void column_theirs(void *context, int round)
{
    struct reading *r = context;
    (void)round;
    int32 id = Hopen(r->file.path, DFACC_READ, 0);
    need(id != FAIL && Vstart(id) != FAIL, "Vstart");
    column_from(id, r);
    need(Vend(id) != FAIL && Hclose(id) != FAIL, "Hclose");
}

/* Every value of the last column that was read is the one that was written. */
static void check_ours(const struct reading *r)
{
    for (int i = 0; i < RECORDS; i++) {
        uint8_t value[MOST_WIDTH];
        put_value(value, r->type, i, r->field);
        need(r->ours[i] == bits_of(value, r->type), "hdf4_read_column gives what was written");
    }
}

static void check_theirs(const struct reading *r)
{
    for (int i = 0; i < RECORDS; i++) {
        uint8_t value[MOST_WIDTH];
        put_value(value, r->type, i, r->field);
        need(memcmp(r->theirs + i * r->type->width, value, (size_t)r->type->width) == 0, "VSread gives what was written");
    }
}

/* Each call gives every value. */
static void check_columns(struct reading *r)
{
    memset(r->ours, 0xff, sizeof r->ours);
    column_ours(r, 0);
    check_ours(r);
    memset(r->theirs, 0xff, sizeof r->theirs);
    column_theirs_open(r, 0);
    check_theirs(r);
    memset(r->theirs, 0xff, sizeof r->theirs);
    column_theirs(r, 0);
    check_theirs(r);
}

/* ---- The table ---- */

/* Makes the file and its copy, which is opened. */
static struct reading *new_reading(const char *folder, const struct type *type, const struct makeup *makeup)
{
    struct reading *r = malloc(sizeof *r);
    need(r != NULL, "memory for columns");
    r->file = file_named(folder, "vdata.hdf", 0);
    r->type = type;
    r->makeup = makeup;
    r->field = makeup->fields / 2;
    write_vdata(r);
    load(&r->file);
    r->room = malloc(r->file.capacity);
    need(r->room != NULL, "memory for a file");
    copy_file(&r->file, ".open", r->open_path, sizeof r->open_path);
    r->open_id = Hopen(r->open_path, DFACC_READ, 0);
    need(r->open_id != FAIL && Vstart(r->open_id) != FAIL, "Vstart");
    return r;
}

static void free_reading(struct reading *r)
{
    need(Vend(r->open_id) != FAIL && Hclose(r->open_id) != FAIL, "Hclose");
    remove(r->open_path);
    free_file(&r->file);
    free(r->room);
    free(r);
}

static void column_row(const char *folder, const struct type *type, const struct makeup *makeup)
{
    call *const calls[] = {column_ours, column_theirs_open, read_alone, column_theirs};
    struct reading *reading = new_reading(folder, type, makeup);
    double times[COUNT(calls)];

    check_columns(reading);
    measure(calls, COUNT(calls), reading, times);
    printf("| %s | %d | %s | %.1f | %.1f | %.1f | %.2f | %.1f | %.1f | %.2f |\n", type->name, makeup->fields, makeup->words,
           times[0], 1e3 * times[0] / RECORDS, times[1], times[0] / times[1], times[2], times[3],
           (times[0] + times[2]) / times[3]);
    fflush(stdout);
    free_reading(reading);
}

void column_table(const char *folder)
{
    printf("### Read a column of a Vdata\n\n"
           "| type | fields | values stand | ours on bytes in memory, µs | that a value, ns | libhdf4 on an open file, µs | "
           "ratio | the file read, alone, µs | libhdf4, opened and closed, µs | ratio, read |\n"
           "|--|--:|--|--:|--:|--:|--:|--:|--:|--:|\n");
    for (int i = 0; i < COUNT(makeups); i++)
        for (int j = 0; j < COUNT(types); j++)
            column_row(folder, &types[j], &makeups[i]);
}
