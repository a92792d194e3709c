/* Images of one element in linked blocks, made by hand, so that tables and blocks have the references that they are given. */
#include "bench.h"

enum { LINKED_TAG = 20, LINKED_KIND = 1, EXTENDED = 16384, RECORD = 22, MODULUS = 251 };

const char *const numbering_names[NUMBERINGS] = {"ascending", "of tables equal modulo 251"};

/* An image in the making: where the next slot and the next element go. */
struct making {
    uint8_t *bytes;
    int slot, place;
};

int blocks_of(const struct links *links)
{
    return links->tables * links->per_table;
}

/* How far the references of two tables that follow each other are apart. */
static int step_of(const struct links *links)
{
    return links->numbering == EQUAL_MODULO ? MODULUS : links->per_table + 1;
}

static int table_reference(const struct links *links, int table)
{
    return 1 + table * step_of(links);
}

/* Blocks have what the tables leave: one number less than a step between two tables. */
static int block_reference(const struct links *links, int block)
{
    return 2 + block + block / (step_of(links) - 1);
}

/* The length of a table: the reference of the next one, then those of its blocks. */
static int table_bytes(const struct links *links)
{
    return 2 + 2 * links->per_table;
}

/* Writes the slot of an element. Gives the place where its bytes go. */
static uint8_t *put_element(struct making *m, int tag, int reference, int length)
{
    uint8_t *element = m->bytes + m->place;
    put_slot(m->bytes + m->slot, tag, reference, m->place, length);
    m->slot += SLOT;
    m->place += length;
    return element;
}

static void put_record(struct making *m, const struct links *links)
{
    uint8_t *record = put_element(m, EXTENDED + TAG, FIRST_REFERENCE, RECORD);
    put_32(record, LINKED_KIND);
    put_32(record + 4, blocks_of(links) * ELEMENT_BYTES);
    put_32(record + 8, ELEMENT_BYTES);
    put_32(record + 12, ELEMENT_BYTES);
    put_32(record + 16, links->per_table);
    put_16(record + 20, table_reference(links, 0));
}

static void put_table(struct making *m, const struct links *links, int table)
{
    uint8_t *bytes = put_element(m, LINKED_TAG, table_reference(links, table), table_bytes(links));
    put_16(bytes, table + 1 < links->tables ? table_reference(links, table + 1) : 0);
    for (int i = 0; i < links->per_table; i++)
        put_16(bytes + 2 + 2 * i, block_reference(links, table * links->per_table + i));
}

static void put_linked_block(struct making *m, const struct links *links, int block)
{
    put_contents(put_element(m, LINKED_TAG, block_reference(links, block), ELEMENT_BYTES), block, 1);
}

/* Writes tables and blocks, the lowest reference first. */
static void put_tables_and_blocks(struct making *m, const struct links *links)
{
    int table = 0, block = 0, blocks = blocks_of(links);
    while (table < links->tables || block < blocks)
        if (block == blocks || table_reference(links, table) < block_reference(links, block))
            put_table(m, links, table++);
        else
            put_linked_block(m, links, block++);
}

struct image make_linked(const struct links *links)
{
    int slots = 1 + links->tables + blocks_of(links);
    int elements = FRONT + BLOCK_FRONT + slots * SLOT;
    int length = elements + RECORD + links->tables * table_bytes(links) + blocks_of(links) * ELEMENT_BYTES;
    struct image image = new_image(length);
    struct making making = {.bytes = image.bytes, .slot = FRONT + BLOCK_FRONT, .place = elements};

    put_block(image.bytes + FRONT, slots, 0);
    put_record(&making, links);
    put_tables_and_blocks(&making, links);
    need(making.slot == elements && making.place == length, "an image has all its slots and bytes");
    return image;
}

/* The element is the numbers 0, 1, 2 and so on, of 16 bits each, so that no two blocks hold the same. */
void put_contents(uint8_t *at, int block, int count)
{
    int numbers = ELEMENT_BYTES / 2;
    for (int i = 0; i < count * numbers; i++)
        put_16(at + 2 * i, block * numbers + i);
}
