/* What images made by hand are put together from. */
#ifndef BYTES_H
#define BYTES_H

#include <stddef.h>
#include <stdint.h>

/* A file in memory alone. */
struct image {
    uint8_t *bytes;
    size_t length;
};

/* In bytes: the front of a file, the front of a block, a slot. */
enum { FRONT = 4, BLOCK_FRONT = 6, SLOT = 12 };

/* Gives memory for an image, with the front of a file in it. */
struct image new_image(int length);

/* Gives an image's memory back. */
void free_image(struct image *image);

/* Write a number, its highest byte first. */
void put_16(uint8_t *at, int number);
void put_32(uint8_t *at, int number);

/* Writes the front of a block: how many slots it has, and the place of the next block, 0 in the last one. */
void put_block(uint8_t *block, int slots, int next);

/* Writes a slot. */
void put_slot(uint8_t *slot, int tag, int reference, int place, int length);

#endif
