#include <stdlib.h>

#include "bytes.h"
#include "need.h"

void put_16(uint8_t *at, int number)
{
    at[0] = (uint8_t)(number >> 8);
    at[1] = (uint8_t)number;
}

void put_32(uint8_t *at, int number)
{
    put_16(at, number >> 16);
    put_16(at + 2, number);
}

void put_block(uint8_t *block, int slots, int next)
{
    put_16(block, slots);
    put_32(block + 2, next);
}

void put_slot(uint8_t *slot, int tag, int reference, int place, int length)
{
    put_16(slot, tag);
    put_16(slot + 2, reference);
    put_32(slot + 4, place);
    put_32(slot + 8, length);
}

struct image new_image(int length)
{
    struct image image = {.bytes = malloc((size_t)length), .length = (size_t)length};
    need(image.bytes != NULL, "memory for an image");
    put_32(image.bytes, 0x0e031301);
    return image;
}

void free_image(struct image *image)
{
    free(image->bytes);
}
