/* Adds a road closure to a small file in memory, finds, views and copies it, and takes it back: the file is then as it was,
 * byte for byte. A second desk can neither add it again nor take it back.
 *
 *     cc -std=c99 -Iinclude examples/closure.c target/staticlib/libhdf4.a -o closure && ./closure
 */
#include <inttypes.h>
#include <stdio.h>
#include <stdlib.h>
#include <string.h>

#include "hdf4.h"

/* The desks that mark the file. A program that edits it alone names desk 0. */
#define FIRST_DESK 1
#define SECOND_DESK 2

#define TAG 40000
#define REFERENCE 5

static const uint8_t text[] = "pass road closed: snow";
#define SIZE (sizeof text - 1)

/* A file of one element, tag 100 and reference 1, and a free slot. */
static const uint8_t start[] = {
    0x0e, 0x03, 0x13, 0x01,                /* the first four bytes */
    0, 2, 0, 0, 0, 0,                      /* a block of two slots, and no next block */
    0, 100, 0, 1, 0, 0, 0, 34, 0, 0, 0, 3, /* tag 100, reference 1: three bytes at 34 */
    0, 1, 0, 0, 0, 0, 0, 0, 0, 0, 0, 0,    /* a free slot */
    'h', 'u', 'b',
};

/* Ends the program if a call was refused. */
static void need(const char *call, uint64_t number, uint64_t place)
{
    if (number == 0)
        return;
    fprintf(stderr, "%s: %s: %s (number %" PRIu64 ", place %" PRIu64 ")\n", call, hdf4_refusal_name(number), hdf4_refusal_text(number),
            number, place);
    exit(1);
}

/* Ends the program if something is not as it must be. */
static void check(int holds, const char *fault)
{
    if (holds)
        return;
    fprintf(stderr, "%s\n", fault);
    exit(1);
}

/* Ends the program unless a call was refused by this rule. */
static void check_refused(hdf4_edit_answer answer, uint64_t rule)
{
    check(answer.number == rule, "a call was not refused");
    printf("refused: %s (number %" PRIu64 ", place %" PRIu64 ")\n", hdf4_refusal_name(answer.number), answer.number, answer.place);
}

/* Finds, views and copies the closure. */
static void read_closure(const uint8_t *image, size_t n)
{
    uint8_t out[SIZE];

    hdf4_find_answer found = hdf4_find(image, n, TAG, REFERENCE);
    need("hdf4_find", found.number, found.place);
    printf("found: its descriptor is at %" PRIu64 "\n", found.slot);

    hdf4_view_answer part = hdf4_view(image, n, TAG, REFERENCE);
    need("hdf4_view", part.number, part.place);
    printf("viewed: %.*s\n", (int)part.length, (const char *)image + part.offset);
    check(part.length == SIZE && memcmp(image + part.offset, text, SIZE) == 0, "the view has other bytes");

    hdf4_copy_answer copied = hdf4_copy(image, n, TAG, REFERENCE, out, SIZE);
    need("hdf4_copy", copied.number, copied.place);
    printf("copied: %" PRIu64 " bytes\n", copied.length);
    check(copied.length == SIZE && memcmp(out, text, SIZE) == 0, "the copy has other bytes");
}

/* The second desk tries to add the closure again and to take it back. Both are refused, and nothing is written. */
static void try_second_desk(uint8_t *buffer, size_t capacity, uint64_t n)
{
    check_refused(hdf4_add(buffer, capacity, n, SECOND_DESK, TAG, REFERENCE, text, SIZE), HDF4_PRESENT);
    check_refused(hdf4_undo(buffer, capacity, n, SECOND_DESK), HDF4_OTHER_DESK);
}

int main(void)
{
    uint8_t buffer[sizeof start + SIZE + HDF4_EDIT_ROOM] = {0};
    memcpy(buffer, start, sizeof start);

    hdf4_edit_answer added = hdf4_add(buffer, sizeof buffer, sizeof start, FIRST_DESK, TAG, REFERENCE, text, SIZE);
    need("hdf4_add", added.number, added.place);
    printf("added: %zu bytes became %" PRIu64 "\n", sizeof start, added.length);
    read_closure(buffer, added.length);

    try_second_desk(buffer, sizeof buffer, added.length);

    hdf4_edit_answer undone = hdf4_undo(buffer, sizeof buffer, added.length, FIRST_DESK);
    need("hdf4_undo", undone.number, undone.place);
    check(undone.length == sizeof start && memcmp(buffer, start, sizeof start) == 0, "the file is not as it was");
    printf("taken back: %" PRIu64 " bytes, as they were\n", undone.length);
    return 0;
}
