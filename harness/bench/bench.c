/* Times our library beside libhdf4 on the same files, in one run, and prints the tables of docs/PERFORMANCE.md.
 *
 *     bench FOLDER        the files go to that folder
 */
#include <stdio.h>
#include <stdlib.h>
#include <string.h>
#include <unistd.h>

#include "bench.h"
#include "hdf.h"
#include "hdf4.h"

#define LARGE ((size_t)64 << 20)

/* A reference that moves through the file from round to round. */
static uint16_t reference_of(const struct file *file, int round)
{
    return (uint16_t)(FIRST_REFERENCE + round * 7919L % file->elements);
}

/* ---- Open, find, read ---- */

struct reading {
    struct file file;
    uint8_t *room;
    uint8_t out[ELEMENT_BYTES];
};

static void check_out(struct reading *r, int round)
{
    uint8_t byte = (uint8_t)reference_of(&r->file, round);
    need(r->out[0] == byte && r->out[ELEMENT_BYTES - 1] == byte, "the element's own bytes");
}

static void read_ours(void *context, int round)
{
    struct reading *r = context;
    size_t n = read_file(r->file.path, r->room, r->file.capacity);
    hdf4_copy_answer copied = hdf4_copy(r->room, n, TAG, reference_of(&r->file, round), r->out, sizeof r->out);
    need(copied.number == 0, "hdf4_copy");
    check_out(r, round);
}

static void read_in_memory(void *context, int round)
{
    struct reading *r = context;
    uint16_t reference = reference_of(&r->file, round);
    hdf4_copy_answer copied = hdf4_copy(r->file.buffer, r->file.length, TAG, reference, r->out, sizeof r->out);
    need(copied.number == 0, "hdf4_copy");
    check_out(r, round);
}

static void read_theirs(void *context, int round)
{
    struct reading *r = context;
    int32 id = Hopen(r->file.path, DFACC_READ, 0);
    need(id != FAIL && Hgetelement(id, TAG, reference_of(&r->file, round), r->out) == ELEMENT_BYTES, "Hgetelement");
    need(Hclose(id) != FAIL, "Hclose");
    check_out(r, round);
}

static void reading_row(const struct file *file, enum order order)
{
    call *const calls[] = {read_ours, read_theirs, read_in_memory};
    struct reading reading = {.file = *file, .room = malloc(file->capacity)};
    double times[COUNT(calls)];
    need(reading.room != NULL, "memory for a file");
    measure(calls, COUNT(calls), &reading, times);
    printf("| %d | %s | %.1f | %.1f | %.2f | %.1f | %.2f | %.1f |\n", file->slots, order_names[order], times[0], times[1],
           times[0] / times[1], times[2], times[2] / times[1], 1e3 * times[2] / file->slots);
    free(reading.room);
}

/* ---- Add, undo ---- */

struct editing {
    struct file file;
    char closed_path[4200]; /* a copy that is opened and closed in each round */
    int32 open_id;          /* a copy that stays open */
};

static const uint8_t mark[ELEMENT_BYTES] = "closed";
static const uint16_t mark_reference = 60000;
static const uint32_t desk = 7;

static void edit_ours(void *context, int round)
{
    struct file *file = &((struct editing *)context)->file;
    (void)round;
    hdf4_edit_answer added = hdf4_add(file->buffer, file->capacity, file->length, desk, TAG, mark_reference, mark, sizeof mark);
    need(added.number == 0, "hdf4_add");
    hdf4_edit_answer undone = hdf4_undo(file->buffer, file->capacity, added.length, desk);
    need(undone.number == 0 && undone.length == file->length, "hdf4_undo");
}

static void add_and_delete(int32 id)
{
    need(Hputelement(id, TAG, mark_reference, mark, sizeof mark) != FAIL, "Hputelement");
    need(Hdeldd(id, TAG, mark_reference) != FAIL, "Hdeldd");
}

static void edit_theirs(void *context, int round)
{
    struct editing *e = context;
    (void)round;
    int32 id = Hopen(e->closed_path, DFACC_RDWR, 0);
    need(id != FAIL, "Hopen to edit");
    add_and_delete(id);
    need(Hclose(id) != FAIL, "Hclose");
}

static void edit_theirs_open(void *context, int round)
{
    (void)round;
    add_and_delete(((struct editing *)context)->open_id);
}

/* The undos have left the bytes that libhdf4 wrote. */
static void check_undone(const struct file *file)
{
    uint8_t *written = malloc(file->capacity);
    need(written != NULL, "memory for a file");
    size_t length = read_file(file->path, written, file->capacity);
    need(length == file->length && memcmp(written, file->buffer, length) == 0, "every byte is as it was");
    free(written);
}

static void editing_row(const struct file *file, enum order order)
{
    call *const calls[] = {edit_ours, edit_theirs, edit_theirs_open};
    struct editing editing = {.file = *file};
    char open_path[4200];
    double times[COUNT(calls)];

    copy_file(file, ".closed", editing.closed_path, sizeof editing.closed_path);
    copy_file(file, ".open", open_path, sizeof open_path);
    editing.open_id = Hopen(open_path, DFACC_RDWR, 0);
    need(editing.open_id != FAIL, "Hopen to edit");
    measure(calls, COUNT(calls), &editing, times);
    check_undone(file);
    need(Hclose(editing.open_id) != FAIL, "Hclose");
    unlink(editing.closed_path);
    unlink(open_path);
    printf("| %d | %s | %.1f | %.1f | %.2f | %.1f | %.2f | %.1f |\n", file->slots, order_names[order], times[0], times[1],
           times[0] / times[1], times[2], times[0] / times[2], 1e3 * times[0] / file->slots);
}

/* ---- A large element ---- */

struct copying {
    struct file file;
    const uint8_t *element;
    uint8_t *out, *room;
};

static void copy_memory(void *context, int round)
{
    struct copying *c = context;
    (void)round;
    memcpy(c->out, c->element, LARGE);
}

static void copy_ours(void *context, int round)
{
    struct copying *c = context;
    (void)round;
    hdf4_copy_answer copied = hdf4_copy(c->file.buffer, c->file.length, TAG, FIRST_REFERENCE, c->out, LARGE);
    need(copied.number == 0 && copied.length == LARGE, "hdf4_copy");
}

static void copy_ours_from_disk(void *context, int round)
{
    struct copying *c = context;
    (void)round;
    size_t n = read_file(c->file.path, c->room, c->file.capacity);
    hdf4_copy_answer copied = hdf4_copy(c->room, n, TAG, FIRST_REFERENCE, c->out, LARGE);
    need(copied.number == 0 && copied.length == LARGE, "hdf4_copy");
}

static void view_from_disk(void *context, int round)
{
    struct copying *c = context;
    (void)round;
    size_t n = read_file(c->file.path, c->room, c->file.capacity);
    hdf4_view_answer part = hdf4_view(c->room, n, TAG, FIRST_REFERENCE);
    need(part.number == 0 && part.length == LARGE, "hdf4_view");
}

static void copy_theirs(void *context, int round)
{
    struct copying *c = context;
    (void)round;
    int32 id = Hopen(c->file.path, DFACC_READ, 0);
    need(id != FAIL && Hgetelement(id, TAG, FIRST_REFERENCE, c->out) == (int32)LARGE, "Hgetelement");
    need(Hclose(id) != FAIL, "Hclose");
}

static void copying_rows(const char *folder)
{
    static const char *const names[] = {"`memcpy`, in memory", "`hdf4_copy`, in memory", "the file read, `hdf4_copy`",
                                        "the file read, `hdf4_view`", "`Hopen`, `Hgetelement`, `Hclose`"};
    call *const calls[] = {copy_memory, copy_ours, copy_ours_from_disk, view_from_disk, copy_theirs};
    struct copying copying = {.file = make_large_file(folder, "large.hdf", LARGE), .out = malloc(LARGE)};
    double times[COUNT(calls)];

    copying.room = malloc(copying.file.capacity);
    need(copying.out != NULL && copying.room != NULL, "memory for a large element");
    hdf4_view_answer part = hdf4_view(copying.file.buffer, copying.file.length, TAG, FIRST_REFERENCE);
    copying.element = copying.file.buffer + part.offset;
    measure(calls, COUNT(calls), &copying, times);
    need(memcmp(copying.out, copying.element, LARGE) == 0, "the element's own bytes");
    for (int i = 0; i < COUNT(calls); i++)
        printf("| %s | %.1f | %.2f |\n", names[i], times[i] / 1e3, times[i] / times[0]);
    free(copying.out);
    free(copying.room);
    free_file(&copying.file);
}

/* ---- An element in linked blocks ---- */

struct linking {
    struct file file;
    uint8_t *out, *room;
    size_t length; /* of the element */
};

/* Lends exactly the room that is needed. */
static void copy_linked(const struct linking *l, const uint8_t *image, size_t n)
{
    hdf4_size_answer size = hdf4_size(image, n, TAG, FIRST_REFERENCE);
    need(size.number == 0 && size.length == l->length, "hdf4_size");
    hdf4_copy_answer copied = hdf4_copy(image, n, TAG, FIRST_REFERENCE, l->out, size.length);
    need(copied.number == 0 && copied.length == l->length, "hdf4_copy");
}

static void link_ours(void *context, int round)
{
    struct linking *l = context;
    (void)round;
    size_t n = read_file(l->file.path, l->room, l->file.capacity);
    copy_linked(l, l->room, n);
}

static void link_theirs(void *context, int round)
{
    struct linking *l = context;
    (void)round;
    int32 id = Hopen(l->file.path, DFACC_READ, 0);
    need(id != FAIL && Hgetelement(id, TAG, FIRST_REFERENCE, l->out) == (int32)l->length, "Hgetelement");
    need(Hclose(id) != FAIL, "Hclose");
}

static void link_in_memory(void *context, int round)
{
    struct linking *l = context;
    (void)round;
    copy_linked(l, l->file.buffer, l->file.length);
}

/* Each call gives what was written. */
static void check_linked(call *const *calls, int count, struct linking *l)
{
    uint8_t *written = new_contents(l->length);
    for (int i = 0; i < count; i++) {
        memset(l->out, 0, l->length);
        calls[i](l, 0);
        need(memcmp(l->out, written, l->length) == 0, "the element's own bytes");
    }
    free(written);
}

static void linked_row(const char *folder, const struct parts *parts)
{
    call *const calls[] = {link_ours, link_theirs, link_in_memory};
    struct linking linking = {.file = make_linked_file(folder, "linked.hdf", parts)};
    double times[COUNT(calls)];

    linking.length = (size_t)parts->blocks * (size_t)parts->bytes;
    linking.out = malloc(linking.length);
    linking.room = malloc(linking.file.capacity);
    need(linking.out != NULL && linking.room != NULL, "memory for an element");
    check_linked(calls, COUNT(calls), &linking);
    measure(calls, COUNT(calls), &linking, times);
    printf("| %d | %d | %d | %d | %.1f | %.1f | %.2f | %.1f | %.2f | %.1f |\n", parts->blocks, parts->bytes, parts->per_table,
           linking.file.slots, times[0], times[1], times[0] / times[1], times[2], times[2] / times[1],
           1e3 * times[2] / parts->blocks);
    fflush(stdout);
    free(linking.out);
    free(linking.room);
    free_file(&linking.file);
}

static void linked_rows(const char *folder)
{
    static const struct parts rows[] = {{16, 4096, 16},   {64, 4096, 16},   {256, 4096, 16},  {1000, 4096, 16}, {1000, 4096, 64},
                                        {2000, 4096, 16}, {3000, 4096, 16}, {3800, 4096, 16}, {4000, 4096, 64}, {1024, 65536, 64}};
    for (int i = 0; i < COUNT(rows); i++)
        linked_row(folder, &rows[i]);
}

/* ---- Tables ---- */

static void each_file(const char *folder, void (*row)(const struct file *, enum order))
{
    for (int i = 0; i < SIZES; i++)
        for (int order = 0; order < ORDERS; order++) {
            struct file file = make_file(folder, "elements.hdf", sizes[i].slots, sizes[i].per_block, (enum order)order);
            row(&file, (enum order)order);
            fflush(stdout);
            free_file(&file);
        }
}

int main(int count, char **words)
{
    need(count == 2, "a folder for the files is named");
    printf("### Open, find one element, read it\n\n"
           "| slots | references | ours, µs | libhdf4, µs | ratio | ours on bytes in memory, µs | ratio | that a slot, ns |\n"
           "|--:|--|--:|--:|--:|--:|--:|--:|\n");
    each_file(words[1], reading_row);

    printf("\n");
    finding_table(words[1]);

    printf("\n");
    worst_table(words[1]);

    printf("\n### Add an element, undo it\n\n"
           "| slots | references | ours, µs | libhdf4, µs | ratio | libhdf4 on an open file, µs | ratio | ours a slot, ns |\n"
           "|--:|--|--:|--:|--:|--:|--:|--:|\n");
    each_file(words[1], editing_row);

    printf("\n### Copy an element of 64 MB\n\n"
           "| | ms | against `memcpy` |\n"
           "|--|--:|--:|\n");
    copying_rows(words[1]);

    printf("\n### Copy an element in linked blocks\n\n"
           "| blocks | bytes a block | blocks a table | slots | ours, µs | libhdf4, µs | ratio | ours on bytes in memory, µs | "
           "ratio | that a block, ns |\n"
           "|--:|--:|--:|--:|--:|--:|--:|--:|--:|--:|\n");
    linked_rows(words[1]);

    printf("\n");
    column_table(words[1]);
    return 0;
}
