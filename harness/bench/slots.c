/* Files of plain elements whose slots libhdf4 filled in some order, or freed and used again. */
#include <stdlib.h>
#include <string.h>

#include "bench.h"
#include "hdf.h"

enum { FIRST_TAG = 1000, OTHER_TAG = 900, HIGHEST_REFERENCE = 65535 };

static int32 create(const char *path, int per_block)
{
    int32 id = Hopen(path, DFACC_CREATE, (int16)per_block);
    need(id != FAIL, "Hopen for a new file");
    return id;
}

static int32 edit(const char *path)
{
    int32 id = Hopen(path, DFACC_RDWR, 0);
    need(id != FAIL, "Hopen to edit");
    return id;
}

static void finish(int32 id)
{
    need(Hclose(id) != FAIL, "Hclose");
}

static void put(int32 id, int tag, int reference)
{
    uint8_t bytes[ELEMENT_BYTES];
    memset(bytes, reference, sizeof bytes);
    need(Hputelement(id, (uint16)tag, (uint16)reference, bytes, sizeof bytes) != FAIL, "Hputelement");
}

/* Puts elements with references that ascend from one of them on. */
static void put_run(int32 id, int tag, int first, int count)
{
    for (int i = 0; i < count; i++)
        put(id, tag, first + i);
}

static void drop(int32 id, int tag, int reference)
{
    need(Hdeldd(id, (uint16)tag, (uint16)reference) != FAIL, "Hdeldd");
}

/* ---- References that ascend ---- */

static void in_blocks_of_16(const char *path, int count)
{
    int32 id = create(path, 16);
    put_run(id, FIRST_TAG, FIRST_REFERENCE, count);
    finish(id);
}

static void in_one_block(const char *path, int count)
{
    int32 id = create(path, count + 1);
    put_run(id, FIRST_TAG, FIRST_REFERENCE, count);
    finish(id);
}

static void tag_by_tag(const char *path, int count)
{
    int32 id = create(path, 16);
    for (int tag = 0; tag < 4; tag++)
        put_run(id, FIRST_TAG + tag, FIRST_REFERENCE, count);
    finish(id);
}

static void tags_by_turns(const char *path, int count)
{
    int32 id = create(path, 16);
    for (int i = 0; i < count; i++)
        for (int tag = 0; tag < 4; tag++)
            put(id, FIRST_TAG + tag, FIRST_REFERENCE + i);
    finish(id);
}

/* Half of the references are the highest ones, the others start anew from the lowest. */
static void wrapped(const char *path, int count)
{
    int32 id = create(path, 16);
    put_run(id, FIRST_TAG, HIGHEST_REFERENCE - count / 2 + 1, count / 2);
    put_run(id, FIRST_TAG, FIRST_REFERENCE, count - count / 2);
    finish(id);
}

/* ---- Slots that are freed and used again ---- */

/* All of them, with the same references in another order. */
static void same_again(const char *path, int count)
{
    uint16_t references[MOST_SLOTS];
    in_blocks_of_16(path, count);
    int32 id = edit(path);
    for (int i = 0; i < count; i++)
        references[i] = (uint16_t)(FIRST_REFERENCE + i);
    for (int i = 0; i < count; i++)
        drop(id, FIRST_TAG, references[i]);
    finish(id);

    id = edit(path);
    shuffle(references, count);
    for (int i = 0; i < count; i++)
        put(id, FIRST_TAG, references[i]);
    finish(id);
}

/* Every so manieth of them, with new references. */
static void some_anew(const char *path, int count, int every)
{
    in_blocks_of_16(path, count);
    int32 id = edit(path);
    for (int i = 0; i < count; i += every)
        drop(id, FIRST_TAG, FIRST_REFERENCE + i);
    finish(id);

    id = edit(path);
    put_run(id, FIRST_TAG, FIRST_REFERENCE + count, (count + every - 1) / every);
    finish(id);
}

static void half_anew(const char *path, int count)
{
    some_anew(path, count, 2);
}

static void third_anew(const char *path, int count)
{
    some_anew(path, count, 3);
}

/* Two tags by turns; half of both are dropped, and new ones take their slots, tag by tag. */
static void two_tags(const char *path, int count)
{
    int32 id = create(path, 16);
    for (int i = 0; i < count; i++)
        put(id, i % 2 == 0 ? FIRST_TAG : OTHER_TAG, FIRST_REFERENCE + i);
    finish(id);

    id = edit(path);
    for (int i = 0; i < count; i++)
        if (i / 2 % 2 == 0)
            drop(id, i % 2 == 0 ? FIRST_TAG : OTHER_TAG, FIRST_REFERENCE + i);
    finish(id);

    id = edit(path);
    put_run(id, OTHER_TAG, FIRST_REFERENCE + count, count / 4);
    put_run(id, FIRST_TAG, FIRST_REFERENCE + count, count / 4);
    finish(id);
}

/* ---- Many rounds of edits ---- */

struct editor {
    uint16_t tags[MOST_SLOTS], references[MOST_SLOTS]; /* of the live elements */
    int live, next;                                    /* how many there are, and the next reference */
    uint64_t state;
};

static int any_below(struct editor *e, int limit)
{
    e->state = e->state * 6364136223846793005u + 1442695040888963407u;
    return (int)((e->state >> 33) % (uint64_t)limit);
}

static void drop_any(struct editor *e, int32 id)
{
    int i = any_below(e, e->live);
    drop(id, e->tags[i], e->references[i]);
    e->live--;
    e->tags[i] = e->tags[e->live];
    e->references[i] = e->references[e->live];
}

static void put_next(struct editor *e, int32 id)
{
    int tag = FIRST_TAG + any_below(e, 3);
    put(id, tag, e->next);
    e->tags[e->live] = (uint16_t)tag;
    e->references[e->live] = (uint16_t)e->next;
    e->live++;
    e->next++;
}

/* Each round opens the file, drops up to 30 elements, and adds up to 40 under three tags, until there are enough. */
static void many_rounds(const char *path, int count)
{
    struct editor e = {.next = FIRST_REFERENCE, .state = 19930401};
    finish(create(path, 16));
    while (e.live < count) {
        int32 id = edit(path);
        for (int left = any_below(&e, 31); left > 0 && e.live > 0; left--)
            drop_any(&e, id);
        for (int left = any_below(&e, 41); left > 0 && e.live < count; left--)
            put_next(&e, id);
        finish(id);
    }
}

/* ---- One tag, in other orders ---- */

static void written_shuffled(const char *path, int count)
{
    write_elements(path, count, count == MOST_SLOTS ? 16 : 20, SHUFFLED);
}

static void written_descending(const char *path, int count)
{
    write_elements(path, count, count == MOST_SLOTS ? 16 : 20, DESCENDING);
}

const struct recipe slot_files[] = {
    {"ascending_1000", "1,000 elements ascending, in blocks of 16", IN_ORDER, in_blocks_of_16, 1000},
    {"ascending_4095", "4,095 elements ascending, in blocks of 16", IN_ORDER, in_blocks_of_16, 4095},
    {"ascending_one_block_4095", "4,095 elements ascending, in one block", IN_ORDER, in_one_block, 4095},
    {"tag_by_tag_4000", "four tags of 1,000 elements, tag by tag", IN_ORDER, tag_by_tag, 1000},
    {"tags_by_turns_4000", "four tags of 1,000 elements, by turns", IN_ORDER, tags_by_turns, 1000},
    {"wrapped_1000", "1,000 elements, references start anew from the lowest", IN_ORDER, wrapped, 1000},
    {"wrapped_4000", "4,000 elements, references start anew from the lowest", IN_ORDER, wrapped, 4000},
    {"deleted_same_1000", "1,000 deleted and added again in other order", USED_AGAIN, same_again, 1000},
    {"deleted_same_4000", "4,000 deleted and added again in other order", USED_AGAIN, same_again, 4000},
    {"deleted_half_1000", "1,000, half of them deleted, others added", USED_AGAIN, half_anew, 1000},
    {"deleted_half_4000", "4,000, half of them deleted, others added", USED_AGAIN, half_anew, 4000},
    {"deleted_third_1000", "1,000, every third deleted, others added", USED_AGAIN, third_anew, 1000},
    {"deleted_third_4000", "4,000, every third deleted, others added", USED_AGAIN, third_anew, 4000},
    {"deleted_two_tags_1000", "1,000 of two tags, half of them deleted, others added", USED_AGAIN, two_tags, 1000},
    {"deleted_two_tags_4000", "4,000 of two tags, half of them deleted, others added", USED_AGAIN, two_tags, 4000},
    {"edited_1000", "1,000 of three tags, after many rounds of edits", USED_AGAIN, many_rounds, 1000},
    {"edited_4000", "4,000 of three tags, after many rounds of edits", USED_AGAIN, many_rounds, 4000},
    {"shuffled_100", "one tag, shuffled", IN_NO_ORDER, written_shuffled, 100},
    {"shuffled_500", "one tag, shuffled", IN_NO_ORDER, written_shuffled, 500},
    {"shuffled_1000", "one tag, shuffled", IN_NO_ORDER, written_shuffled, 1000},
    {"shuffled_2000", "one tag, shuffled", IN_NO_ORDER, written_shuffled, 2000},
    {"shuffled_4096", "one tag, shuffled", IN_NO_ORDER, written_shuffled, 4096},
    {"descending_100", "one tag, descending", IN_NO_ORDER, written_descending, 100},
    {"descending_500", "one tag, descending", IN_NO_ORDER, written_descending, 500},
    {"descending_1000", "one tag, descending", IN_NO_ORDER, written_descending, 1000},
    {"descending_2000", "one tag, descending", IN_NO_ORDER, written_descending, 2000},
    {"descending_4096", "one tag, descending", IN_NO_ORDER, written_descending, 4096},
    {0}};
