/* Images of the largest directory, made by hand, so that blocks and elements stand where they are put. */
#include <string.h>

#include "bench.h"

enum { BLOCKS = 256, PER_BLOCK = 16, SLOTS = BLOCKS * PER_BLOCK };

/* In bytes: a block, a block with the room for elements behind it, and the whole image. */
enum {
    BLOCK = BLOCK_FRONT + PER_BLOCK * SLOT,
    BLOCK_AND_ROOM = BLOCK + PER_BLOCK * ELEMENT_BYTES,
    LENGTH = FRONT + BLOCKS * BLOCK_AND_ROOM
};

const char *const chain_names[CHAINS] = {"chain rises", "chain falls", "chain scrambled"};
const char *const spread_names[SPREADS] = {"elements behind their own block", "elements scattered"};

/* The place of the block that stands so many blocks behind the first. */
static int block_place(int position)
{
    return FRONT + position * BLOCK_AND_ROOM;
}

/* The place of the element that stands so many elements behind the first. */
static int element_place(int position)
{
    return block_place(position / PER_BLOCK) + BLOCK + position % PER_BLOCK * ELEMENT_BYTES;
}

/* The positions of the blocks, in the order of the chain. */
static void fill_blocks(uint16_t *blocks, enum chain chain)
{
    for (int i = 0; i < BLOCKS; i++)
        blocks[i] = (uint16_t)(chain == FALLING && i > 0 ? BLOCKS - i : i);
    if (chain == SCRAMBLED)
        shuffle(blocks + 1, BLOCKS - 1);
}

/* The positions of the elements, in the order of their slots along the chain. */
static void fill_elements(uint16_t *elements, const uint16_t *blocks, enum spread spread)
{
    for (int i = 0; i < SLOTS; i++)
        elements[i] = (uint16_t)(blocks[i / PER_BLOCK] * PER_BLOCK + i % PER_BLOCK);
    if (spread == SCATTERED)
        shuffle(elements, SLOTS);
}

/* Writes the slots of a block, and their elements. The first slot of the block is so many slots behind the chain's first. */
static void put_slots(uint8_t *bytes, int block, int first, const uint16_t *elements, pairing *pairs)
{
    for (int i = 0; i < PER_BLOCK; i++) {
        struct pair pair = pairs(first + i);
        int place = element_place(elements[first + i]);
        put_slot(bytes + block + BLOCK_FRONT + i * SLOT, pair.tag, pair.reference, place, ELEMENT_BYTES);
        memset(bytes + place, pair.reference, ELEMENT_BYTES);
    }
}

struct pair ascending_pair(int slot)
{
    return (struct pair){.tag = TAG, .reference = (uint16_t)(FIRST_REFERENCE + slot)};
}

struct image make_image(enum chain chain, enum spread spread, pairing *pairs)
{
    struct image image = new_image(LENGTH);
    uint16_t blocks[BLOCKS], elements[SLOTS];

    fill_blocks(blocks, chain);
    fill_elements(elements, blocks, spread);
    for (int i = 0; i < BLOCKS; i++) {
        int block = block_place(blocks[i]);
        put_block(image.bytes + block, PER_BLOCK, i + 1 < BLOCKS ? block_place(blocks[i + 1]) : 0);
        put_slots(image.bytes, block, i * PER_BLOCK, elements, pairs);
    }
    return image;
}
