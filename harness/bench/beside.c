/* Times an earlier build of our library beside this one on the same files, in one run, and prints two tables.
 *
 *     beside FOLDER       the files go to that folder
 */
#include <stdio.h>
#include <stdlib.h>
#include <string.h>

#include "bench.h"
#include "hdf4.h"

/* The earlier build's, by the names that `run` gives them. */
hdf4_open_answer earlier_hdf4_open(const uint8_t *image, size_t n);
hdf4_copy_answer earlier_hdf4_copy(const uint8_t *image, size_t n, uint16_t tag, uint16_t ref, uint8_t *out, size_t room);

enum { BUILDS = 2 };

/* Prints a row from the column of slots on. */
static void times_row(call *const *calls, void *context, uint64_t slots)
{
    double times[BUILDS];
    measure(calls, BUILDS, context, times);
    printf(" | %d | %.1f | %.1f | %.2f |\n", (int)slots, times[0], times[1], times[1] / times[0]);
    fflush(stdout);
}

/* ---- Opening ---- */

struct opening {
    const uint8_t *image;
    size_t length;
};

static void open_by_earlier(void *context, int round)
{
    const struct opening *o = context;
    (void)round;
    need(earlier_hdf4_open(o->image, o->length).number == 0, "the earlier build opens the file");
}

static void open_by_this(void *context, int round)
{
    const struct opening *o = context;
    (void)round;
    need(hdf4_open(o->image, o->length).number == 0, "this build opens the file");
}

static call *const opens[BUILDS] = {open_by_earlier, open_by_this};

/* Gives the answer, which is the same from both builds. */
static hdf4_open_answer same_answer(const struct opening *o)
{
    hdf4_open_answer earlier = earlier_hdf4_open(o->image, o->length);
    hdf4_open_answer this = hdf4_open(o->image, o->length);
    need(earlier.number == this.number && earlier.place == this.place, "both builds give the same number and place");
    need(earlier.blocks == this.blocks, "both builds count the same blocks");
    need(earlier.slots == this.slots && earlier.live == this.live, "both builds count the same slots");
    return this;
}

static void file_row(const char *folder, const char *how, int slots, int per_block)
{
    struct file file = make_file(folder, "elements.hdf", slots, per_block, ASCENDING);
    struct opening opening = {.image = file.buffer, .length = file.length};
    hdf4_open_answer opened = same_answer(&opening);
    need((int)opened.blocks == slots / per_block, "libhdf4 writes blocks of that size");
    printf("| written by libhdf4%s", how);
    times_row(opens, &opening, opened.slots);
    free_file(&file);
}

static void image_row(enum chain chain, enum spread spread)
{
    struct image image = make_image(chain, spread, ascending_pair);
    struct opening opening = {.image = image.bytes, .length = image.length};
    hdf4_open_answer opened = same_answer(&opening);
    need(opened.number == 0 && opened.blocks == 256, "an image opens with all its blocks");
    need(opened.slots == 4096 && opened.live == 4096, "all slots of an image are live");
    printf("| %s, %s", chain_names[chain], spread_names[spread]);
    times_row(opens, &opening, opened.slots);
    free_image(&image);
}

/* ---- Copying an element in linked blocks ---- */

struct copying {
    struct image image;
    uint8_t *out;  /* what a copy gives */
    uint8_t *held; /* what the blocks hold */
    size_t length; /* of both */
};

static void copy_by_earlier(void *context, int round)
{
    struct copying *c = context;
    (void)round;
    hdf4_copy_answer copied = earlier_hdf4_copy(c->image.bytes, c->image.length, TAG, FIRST_REFERENCE, c->out, c->length);
    need(copied.number == 0 && copied.length == c->length, "the earlier build copies the element");
}

static void copy_by_this(void *context, int round)
{
    struct copying *c = context;
    (void)round;
    hdf4_copy_answer copied = hdf4_copy(c->image.bytes, c->image.length, TAG, FIRST_REFERENCE, c->out, c->length);
    need(copied.number == 0 && copied.length == c->length, "this build copies the element");
}

static call *const copies[BUILDS] = {copy_by_earlier, copy_by_this};

/* Both builds give what the blocks hold. */
static void check_copies(struct copying *c)
{
    for (int i = 0; i < BUILDS; i++) {
        memset(c->out, 0xff, c->length);
        copies[i](c, 0);
        need(memcmp(c->out, c->held, c->length) == 0, "a copy is what the blocks hold");
    }
}

static void linked_row(const struct links *links)
{
    int blocks = blocks_of(links);
    struct copying copying = {.image = make_linked(links), .length = (size_t)blocks * ELEMENT_BYTES};
    struct opening opening = {.image = copying.image.bytes, .length = copying.image.length};

    copying.out = malloc(copying.length);
    copying.held = malloc(copying.length);
    need(copying.out != NULL && copying.held != NULL, "memory for an element");
    put_contents(copying.held, 0, blocks);
    hdf4_open_answer opened = same_answer(&opening);
    check_copies(&copying);
    printf("| %s | %d | %d", numbering_names[links->numbering], links->tables, blocks);
    times_row(copies, &copying, opened.slots);
    free(copying.out);
    free(copying.held);
    free_image(&copying.image);
}

/* ---- Tables ---- */

static void opening_rows(const char *folder)
{
    for (int i = 0; i < SIZES; i++)
        file_row(folder, "", sizes[i].slots, sizes[i].per_block);
    file_row(folder, ", in one block", MOST_SLOTS, MOST_SLOTS);
    for (int chain = 0; chain < CHAINS; chain++)
        for (int spread = 0; spread < SPREADS; spread++)
            image_row((enum chain)chain, (enum spread)spread);
}

static void linked_rows(void)
{
    static const struct links rows[] = {{APPENDED, 1, 16},   {APPENDED, 16, 16}, {APPENDED, 64, 16},
                                        {APPENDED, 240, 16}, {APPENDED, 240, 1}, {EQUAL_MODULO, 240, 16}};
    for (int i = 0; i < COUNT(rows); i++)
        linked_row(&rows[i]);
}

int main(int count, char **words)
{
    need(count == 2, "a folder for the files is named");
    printf("### Opening, by an earlier build and by this one\n\n"
           "| file | slots | earlier, µs | this, µs | ratio |\n"
           "|--|--:|--:|--:|--:|\n");
    opening_rows(words[1]);

    printf("\n### Copying an element in linked blocks, by an earlier build and by this one\n\n"
           "| references | tables | blocks | slots | earlier, µs | this, µs | ratio |\n"
           "|--|--:|--:|--:|--:|--:|--:|\n");
    linked_rows();
    return 0;
}
