/* The table of files as libraries write them: open, find one element. */
#define _POSIX_C_SOURCE 200809L
#include <fcntl.h>
#include <stdio.h>
#include <stdlib.h>
#include <string.h>
#include <sys/mman.h>
#include <sys/stat.h>
#include <unistd.h>

#include "bench.h"
#include "hdf.h"
#include "hdf4.h"

enum { LISTED = 4 }; /* numbers of an element in the listing */

struct finding {
    struct file file;
    uint8_t *room;
    uint32_t list[LISTED * MOST_SLOTS];
};

/* ---- The calls ---- */

static struct pair pair_at(const struct finding *f, int index)
{
    const uint32_t *entry = f->list + LISTED * index;
    return (struct pair){.tag = (uint16_t)entry[0], .reference = (uint16_t)entry[1]};
}

/* Another one in each round. */
static struct pair pair_of(const struct finding *f, int round)
{
    return pair_at(f, (int)(round * 7919L % f->file.live));
}

static void find_in(const uint8_t *image, size_t n, struct pair pair)
{
    hdf4_find_answer found = hdf4_find(image, n, pair.tag, pair.reference);
    uint8_t slot[4];
    put_16(slot, pair.tag);
    put_16(slot + 2, pair.reference);
    need(found.number == 0 && memcmp(image + found.slot, slot, sizeof slot) == 0, "hdf4_find");
}

static void find_in_memory(void *context, int round)
{
    struct finding *f = context;
    find_in(f->file.buffer, f->file.length, pair_of(f, round));
}

static void read_alone(void *context, int round)
{
    struct finding *f = context;
    (void)round;
    need(read_file(f->file.path, f->room, f->file.capacity) == f->file.length, "the bytes of a file");
}

static void find_mapped(void *context, int round)
{
    struct finding *f = context;
    struct stat status;
    int id = open(f->file.path, O_RDONLY);
    need(id >= 0 && fstat(id, &status) == 0, "a file to map");
    size_t length = (size_t)status.st_size;
    uint8_t *image = mmap(NULL, length, PROT_READ, MAP_PRIVATE, id, 0);
    need(image != MAP_FAILED, "mmap");
    find_in(image, length, pair_of(f, round));
    munmap(image, length);
    close(id);
}

static void find_theirs(void *context, int round)
{
    struct finding *f = context;
    struct pair pair = pair_of(f, round);
    int32 id = Hopen(f->file.path, DFACC_READ, 0);
    need(id != FAIL && Hexist(id, pair.tag, pair.reference) != FAIL, "Hexist");
    need(Hclose(id) != FAIL, "Hclose");
}

/* libhdf4 finds each element that ours lists. */
static void check_found(const struct finding *f)
{
    int32 id = Hopen(f->file.path, DFACC_READ, 0);
    need(id != FAIL, "libhdf4 opens the file");
    for (int i = 0; i < f->file.live; i++) {
        struct pair pair = pair_at(f, i);
        need(Hexist(id, pair.tag, pair.reference) != FAIL, "libhdf4 finds what ours lists");
    }
    need(Hclose(id) != FAIL, "Hclose");
}

/* ---- The table ---- */

/* Gives the ratio on bytes in memory. */
static double finding_row(const char *folder, const struct recipe *recipe)
{
    call *const calls[] = {find_in_memory, read_alone, find_mapped, find_theirs};
    struct finding finding = {.file = make_by(folder, recipe)};
    double times[COUNT(calls)];

    finding.room = malloc(finding.file.capacity);
    need(finding.room != NULL, "memory for a file");
    hdf4_list_answer listed = hdf4_list(finding.file.buffer, finding.file.length, finding.list, LISTED * MOST_SLOTS);
    need(listed.number == 0 && (int)listed.elements == finding.file.live, "hdf4_list");
    check_found(&finding);
    measure(calls, COUNT(calls), &finding, times);
    printf("| %s | %d | %.1f | %.1f | %.1f | %.1f | %.2f | %.2f | %.2f |\n", recipe->words, finding.file.slots, times[0], times[1],
           times[2], times[3], times[0] / times[3], (times[0] + times[1]) / times[3], times[2] / times[3]);
    fflush(stdout);
    free(finding.room);
    free_file(&finding.file);
    return times[0] / times[3];
}

/* The greatest ratio of each kind of example, and the file that has it. */
struct greatest {
    double ratio;
    const char *words;
};

/* A row for each file of a list. */
static void finding_rows(const char *folder, const struct recipe *list, struct greatest *greatest)
{
    for (const struct recipe *recipe = list; recipe->name != NULL; recipe++) {
        double ratio = finding_row(folder, recipe);
        if (greatest[recipe->example].ratio < ratio)
            greatest[recipe->example] = (struct greatest){ratio, recipe->words};
    }
}

static void greatest_rows(const struct greatest *greatest)
{
    static const char *const names[EXAMPLES] = {"written through the interfaces", "plain elements, references ascend",
                                                "slots used again", "references in no order"};
    printf("\n| the greatest ratio in memory | | file |\n"
           "|--|--:|--|\n");
    for (int i = 0; i < EXAMPLES; i++)
        printf("| %s | %.2f | %s |\n", names[i], greatest[i].ratio, greatest[i].words);
}

void finding_table(const char *folder)
{
    struct greatest greatest[EXAMPLES] = {{0, ""}};
    printf("### Open a file and find an element, files that libhdf4 writes\n\n"
           "| file | slots | ours on bytes in memory, µs | the file read, alone, µs | ours on the file mapped, µs | libhdf4, µs | "
           "ratio, in memory | ratio, read | ratio, mapped |\n"
           "|--|--:|--:|--:|--:|--:|--:|--:|--:|\n");
    finding_rows(folder, interface_files, greatest);
    finding_rows(folder, slot_files, greatest);
    greatest_rows(greatest);
}
