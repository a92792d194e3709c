/* The table of images made by hand that take longest to open. */
#include <stdio.h>

#include "bench.h"
#include "hdf.h"
#include "hdf4.h"

enum { FEW = 64, LOWEST_TAG = 200, HIGHEST_REFERENCE = 65535, PRIME = 127, MARKS = 251, POWER = 256 };

/* ---- Pairs ---- */

static struct pair descending_reference(int slot)
{
    return ascending_pair(MOST_SLOTS - 1 - slot);
}

static struct pair descending_tag(int slot)
{
    return (struct pair){.tag = (uint16_t)(LOWEST_TAG + MOST_SLOTS - 1 - slot), .reference = FIRST_REFERENCE};
}

/* Both descend, and each is there once. */
static struct pair descending_both(int slot)
{
    return (struct pair){.tag = descending_tag(slot).tag, .reference = descending_reference(slot).reference};
}

/* 64 tags by turns, each with the same 64 references, which descend. All tags are equal modulo a number, and so are all
 * references. */
static struct pair equal_modulo(int slot, int modulus)
{
    int tag = LOWEST_TAG + modulus * (FEW - 1 - slot % FEW);
    return (struct pair){.tag = (uint16_t)tag, .reference = (uint16_t)(HIGHEST_REFERENCE - modulus * (slot / FEW))};
}

static struct pair equal_modulo_prime(int slot)
{
    return equal_modulo(slot, PRIME);
}

static struct pair equal_modulo_marks(int slot)
{
    return equal_modulo(slot, MARKS);
}

static struct pair equal_modulo_power(int slot)
{
    return equal_modulo(slot, POWER);
}

/* ---- The table ---- */

struct worst {
    struct image image;
    char path[4200];
};

static void open_ours(void *context, int round)
{
    struct worst *w = context;
    (void)round;
    need(hdf4_open(w->image.bytes, w->image.length).number == 0, "hdf4_open");
}

static void open_theirs(void *context, int round)
{
    struct worst *w = context;
    (void)round;
    int32 id = Hopen(w->path, DFACC_READ, 0);
    need(id != FAIL && Hclose(id) != FAIL, "Hopen of an image made by hand");
}

/* What an image is like, in words, and the three things that make it so. */
struct likeness {
    const char *words;
    pairing *pairs;
    enum chain chain;
    enum spread spread;
};

static void worst_row(const char *folder, const struct likeness *like)
{
    call *const calls[] = {open_ours, open_theirs};
    struct worst worst = {.image = make_image(like->chain, like->spread, like->pairs)};
    double times[COUNT(calls)];
    int length = snprintf(worst.path, sizeof worst.path, "%s/worst.hdf", folder);

    need(length > 0 && (size_t)length < sizeof worst.path, "the name of a file");
    write_file(worst.path, worst.image.bytes, worst.image.length);
    hdf4_open_answer opened = hdf4_open(worst.image.bytes, worst.image.length);
    need(opened.number == 0 && opened.live == MOST_SLOTS, "all slots of an image are live");
    measure(calls, COUNT(calls), &worst, times);
    printf("| %s | %s, %s | %.3f | %.3f | %.2f |\n", like->words, chain_names[like->chain], spread_names[like->spread],
           times[0] / 1e3, times[1] / 1e3, times[0] / times[1]);
    fflush(stdout);
    remove(worst.path);
    free_image(&worst.image);
}

void worst_table(const char *folder)
{
    static const struct likeness rows[] = {
        {"one tag, references ascend", ascending_pair, RISING, BEHIND_OWN},
        {"one tag, references descend", descending_reference, RISING, BEHIND_OWN},
        {"one reference, tags descend", descending_tag, RISING, BEHIND_OWN},
        {"both descend, each is there once", descending_both, RISING, BEHIND_OWN},
        {"64 tags by turns, 64 references, equal modulo 127", equal_modulo_prime, RISING, BEHIND_OWN},
        {"64 tags by turns, 64 references, equal modulo 251", equal_modulo_marks, RISING, BEHIND_OWN},
        {"64 tags by turns, 64 references, equal modulo 256", equal_modulo_power, RISING, BEHIND_OWN},
        {"one tag, references ascend", ascending_pair, SCRAMBLED, SCATTERED},
        {"one tag, references descend", descending_reference, SCRAMBLED, SCATTERED},
        {"64 tags by turns, 64 references, equal modulo 256", equal_modulo_power, SCRAMBLED, SCATTERED}};

    printf("### Open an image of 4,096 slots in 256 blocks, made by hand\n\n"
           "| tags and references | blocks and elements | `hdf4_open`, ms | `Hopen`, `Hclose`, ms | ratio |\n"
           "|--|--|--:|--:|--:|\n");
    for (int i = 0; i < COUNT(rows); i++)
        worst_row(folder, &rows[i]);
}
