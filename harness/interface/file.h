/* A file in memory with an element for every call that reads one, made by hand. Its numbers are written down beside what is compared
 * with them. */
#ifndef FILE_H
#define FILE_H

#include <stddef.h>
#include <stdint.h>

/* Two blocks of 11 slots, 9 of them live:
 *
 *     slot 10     106/7       a number type, 4 bytes at 148
 *     slot 22     300/2       a dimension, 20 bytes at 152
 *     slot 34     701/8       an array, 22 bytes at 172
 *     slot 46     1965/3      a Vgroup, 33 bytes at 194
 *     slot 58     1965/5      another, 18 bytes at 227
 *     slot 70     1962/4      the head of a Vdata, 66 bytes at 245
 *     slot 88     1963/4      its data, 56 bytes at 311
 *     slot 100    free
 *     slot 112    100/1       9 bytes at 367
 *     slot 124    16484/9     an extended element, 22 bytes at 376
 *     slot 136    free
 */
enum { FILE_LENGTH = 398 };

/* A file of one element, 100/1 with three bytes at 34, and a free slot. */
enum { SMALL_LENGTH = 37 };

/* A file of one element in linked blocks. Its second block, 20/8, is not there:
 *
 *     slot 10     20/6        its table, 6 bytes at 46
 *     slot 22     20/7        its first block, 3 bytes at 52
 *     slot 34     16686/4     its record, 22 bytes at 55
 */
enum { LINKED_LENGTH = 77 };

/* A file of a Vdata of every type with 16384 added, one record of ten fields:
 *
 *     slot 10     1962/6      its head, 125 bytes at 34
 *     slot 22     1963/6      its data, 40 bytes at 159
 */
enum { LITTLE_ENDIAN_LENGTH = 199 };

/* The slots as they are listed, and the records as they stand in the file. */
extern const uint32_t file_slots[9][4];
extern const uint8_t number_type[4];
extern const uint8_t dimension[20];
extern const uint8_t array[22];
extern const uint8_t group[33];
extern const uint8_t head[66];
extern const uint8_t little_endian_head[125];

/* Write the files. */
void make_file(uint8_t *file);
void make_small(uint8_t *file);
void make_linked(uint8_t *file);
void make_little_endian(uint8_t *file);

#endif
