#include <string.h>

#include "bytes.h"
#include "file.h"

const uint32_t file_slots[9][4] = {
    {106, 7, 148, 4},   {300, 2, 152, 20},  {701, 8, 172, 22}, {1965, 3, 194, 33},   {1965, 5, 227, 18},
    {1962, 4, 245, 66}, {1963, 4, 311, 56}, {100, 1, 367, 9},  {16484, 9, 376, 22},
};

const uint8_t number_type[4] = {1, 24, 32, 4};

/* 12 by 10, type 106/7, 3 numbers in each point, interlace 1, compression 11/5. */
const uint8_t dimension[20] = {0, 0, 0, 12, 0, 0, 0, 10, 0, 106, 0, 7, 0, 3, 0, 1, 0, 11, 0, 5};

/* Sizes 40 and 50, pairs 106/7, 108/9 and 109/13. */
const uint8_t array[22] = {0, 2, 0, 0, 0, 40, 0, 0, 0, 50, 0, 106, 0, 7, 0, 108, 0, 9, 0, 109, 0, 13};

/* Members 1965/5 and 300/2, extension 21/22, version 3, more 23. */
const uint8_t group[33] = {0, 2, 7, 173, 1, 44,  0,   5,   0,   2,   0, 5,  'n', 'o', 'r', 't', 'h',
                           0, 6, 'r', 'o', 'a', 'd', 's', '!', 0, 21, 0,   22,  0,   3,   0,   23};

/* One member, 1962/4, no name and no class. */
static const uint8_t inner[18] = {0, 1, 7, 170, 0, 4, 0, 0, 0, 0, 0, 0, 0, 0, 0, 3, 0, 0};

/* By field, 4 records of 14 bytes; two fields: three numbers of type 22, and two of type 5; extension 31/32, version 3, more 33. */
const uint8_t head[66] = {
    0, 1, 0, 0, 0, 4, 0, 14, 0, 2,                        /* interlace, records, size of a record, fields */
    0, 22, 0, 5, 0, 6, 0, 8, 0, 0, 0, 6, 0, 3, 0, 2,      /* types, sizes, offsets, orders */
    0, 7, 'h', 'e', 'i', 'g', 'h', 't', 's', 0, 4, 'w', 'i', 'n', 'd',
    0, 8, 's', 't', 'a', 't', 'i', 'o', 'n', 's', 0, 5, 't', 'r', 'a', 'c', 'k',
    0, 31, 0, 32, 0, 3, 0, 33,
};

/* By record, 1 record of 40 bytes; ten fields without names, each of another type with 16384 added, floats two at a time; named "low". */
const uint8_t little_endian_head[125] = {
    0, 0, 0, 0, 0, 1, 0, 40, 0, 10,                                             /* interlace, records, size of a record, fields */
    64, 3, 64, 4, 64, 5, 64, 6, 64, 20, 64, 21, 64, 22, 64, 23, 64, 24, 64, 25, /* types */
    0, 1, 0, 1, 0, 8, 0, 16, 0, 1, 0, 1, 0, 2, 0, 2, 0, 4, 0, 4,                /* sizes */
    0, 0, 0, 1, 0, 2, 0, 10, 0, 26, 0, 27, 0, 28, 0, 30, 0, 32, 0, 36,          /* offsets */
    0, 1, 0, 1, 0, 2, 0, 2, 0, 1, 0, 1, 0, 1, 0, 1, 0, 1, 0, 1,                 /* orders */
    0, 0, 0, 0, 0, 0, 0, 0, 0, 0, 0, 0, 0, 0, 0, 0, 0, 0, 0, 0,                 /* names of fields */
    0, 3, 'l', 'o', 'w', 0, 0, 0, 0, 0, 0, 0, 3, 0, 0,
};

/* Its record. */
static const uint8_t little_endian_record[40] = {
    0xe9,                                           /* a character, e9 */
    'n',                                            /* another */
    0, 0, 0xc0, 0x3f,                               /* 1.5 */
    1, 0, 0x80, 0x7f,                               /* the NaN 7f800001 */
    0, 0, 0, 0, 0, 0, 4, 0xc0,                      /* -2.5 */
    0xbc, 0x9a, 0x78, 0x56, 0x34, 0x12, 0xf0, 0xff, /* the NaN fff0123456789abc */
    0x80,                                           /* -128 */
    0x80,                                           /* 128 */
    0xfe, 0xff,                                     /* -2 */
    0xfe, 0xff,                                     /* 65534 */
    1, 0, 0, 0x80,                                  /* -2147483647 */
    1, 0, 0, 0x80,                                  /* 2147483649 */
};

/* Of an element in linked blocks: no next table, blocks 7 and 8; and kind 1, 5 bytes, 3 in the first block and 2 in another, 2 blocks
 * in a table, table 6. */
static const uint8_t table[6] = {0, 0, 0, 7, 0, 8};
static const uint8_t linked[22] = {0, 0, 0, 1, 0, 0, 0, 5, 0, 0, 0, 3, 0, 0, 0, 2, 0, 0, 0, 2, 0, 6};

static void put(uint8_t *file, int place, const uint8_t *bytes, size_t length)
{
    memcpy(file + place, bytes, length);
}

void make_file(uint8_t *file)
{
    static const int slots[9] = {10, 22, 34, 46, 58, 70, 88, 112, 124};

    memset(file, 0, FILE_LENGTH);
    put_32(file, 0x0e031301);
    put_block(file + 4, 6, 82);
    put_block(file + 82, 5, 0);
    for (int i = 0; i < 9; i++) {
        const uint32_t *slot = file_slots[i];
        put_slot(file + slots[i], (int)slot[0], (int)slot[1], (int)slot[2], (int)slot[3]);
    }
    put_slot(file + 100, 1, 0, 0, 0);
    put_slot(file + 136, 1, 0, 0, 0);
    put(file, 148, number_type, sizeof number_type);
    put(file, 152, dimension, sizeof dimension);
    put(file, 172, array, sizeof array);
    put(file, 194, group, sizeof group);
    put(file, 227, inner, sizeof inner);
    put(file, 245, head, sizeof head);
    put_16(file + 325, 0xfffe);     /* record 2, field 0, component 1: -2 */
    put_32(file + 359, 0x3fc00000); /* record 3, field 1, component 0: 1.5 */
    memcpy(file + 367, "hub roads", 9);
}

void make_small(uint8_t *file)
{
    put_32(file, 0x0e031301);
    put_block(file + 4, 2, 0);
    put_slot(file + 10, 100, 1, 34, 3);
    put_slot(file + 22, 1, 0, 0, 0);
    memcpy(file + 34, "hub", 3);
}

void make_linked(uint8_t *file)
{
    put_32(file, 0x0e031301);
    put_block(file + 4, 3, 0);
    put_slot(file + 10, 20, 6, 46, 6);
    put_slot(file + 22, 20, 7, 52, 3);
    put_slot(file + 34, 16686, 4, 55, 22);
    put(file, 46, table, sizeof table);
    memcpy(file + 52, "hub", 3);
    put(file, 55, linked, sizeof linked);
}

void make_little_endian(uint8_t *file)
{
    put_32(file, 0x0e031301);
    put_block(file + 4, 2, 0);
    put_slot(file + 10, 1962, 6, 34, 125);
    put_slot(file + 22, 1963, 6, 159, 40);
    put(file, 34, little_endian_head, sizeof little_endian_head);
    put(file, 159, little_endian_record, sizeof little_endian_record);
}
