/* Measures what a nested group costs hdf4_list_group: lists Vgroups of which each is the only member of the one before it. The innermost
 * one has a member that is no group, so that all of them are walked alike. */
#include <stdio.h>

#include "bytes.h"
#include "hdf4.h"
#include "meter.h"
#include "need.h"

#define GROUP 1965
#define OTHER 1000 /* a tag that is no group's */
#define LEVELS 16  /* the most groups nested in a listing that is granted */
#define FEW 10     /* groups that cost more stack than opening their image */
#define MOST 1000  /* groups in the largest image */

static const int too_many[] = {LEVELS + 1, 100, MOST};

enum { GROUP_BYTES = 18 };

static uint16_t list[2 * MOST];

/* Ends the program if something failed, with a word about it and about the image. */
static void need_of(int groups, int holds, const char *what)
{
    if (!holds)
        fprintf(stderr, "%d nested groups: ", groups);
    need(holds, what);
}

/* ---- Images ---- */

/* The tag of a group's only member. The groups have the references 1, 2, 3 and so on, and the member the next one. */
static uint16_t member_tag(int group, int groups)
{
    return group < groups ? GROUP : OTHER;
}

/* A Vgroup with one member: no name, no class, no extension, version 3. */
static void put_group(uint8_t *at, int group, int groups)
{
    put_16(at, 1);
    put_16(at + 2, member_tag(group, groups));
    put_16(at + 4, group + 1);
    put_32(at + 6, 0);
    put_32(at + 10, 0);
    put_16(at + 14, 3);
    put_16(at + 16, 0);
}

/* Makes the image of so many nested groups: a block of their slots, then the groups. */
static struct image make_image(int groups)
{
    int slots = FRONT + BLOCK_FRONT, records = slots + groups * SLOT;
    struct image image = new_image(records + groups * GROUP_BYTES);
    put_block(image.bytes + FRONT, groups, 0);
    for (int i = 0; i < groups; i++) {
        int place = records + i * GROUP_BYTES;
        put_slot(image.bytes + slots + i * SLOT, GROUP, i + 1, place, GROUP_BYTES);
        put_group(image.bytes + place, i + 1, groups);
    }
    return image;
}

/* ---- Marks ---- */

static hdf4_group_list_answer list_from(uint16_t reference, int groups)
{
    struct image image = make_image(groups);
    hdf4_group_list_answer answer = hdf4_list_group(image.bytes, image.length, reference, list, 2 * MOST);
    free_image(&image);
    return answer;
}

/* What a listing of all groups keeps. */
static size_t mark_listed(int groups)
{
    hdf4_group_list_answer answer = list_from(1, groups);
    size_t mark = stack_last_mark();
    need_of(groups, answer.number == 0 && answer.pairs == (uint64_t)groups, "a pair is listed for each");
    for (int group = 1; group <= groups; group++) {
        const uint16_t *pair = list + 2 * (group - 1);
        need_of(groups, pair[0] == member_tag(group, groups) && pair[1] == group + 1, "the pairs are the members");
    }
    return mark;
}

/* What a listing keeps that is refused with a number. */
static size_t mark_refused(uint16_t reference, int groups, uint64_t number)
{
    hdf4_group_list_answer answer = list_from(reference, groups);
    need_of(groups, answer.number == number, "a listing is refused");
    return stack_last_mark();
}

/* What a listing keeps to open the image and find that the group is absent. */
static size_t mark_opened(int groups)
{
    return mark_refused(MOST + 1, groups, HDF4_ABSENT);
}

int main(void)
{
    stack_painted = (size_t)1 << 20;
    size_t few = mark_listed(FEW), level = mark_listed(FEW + 1) - few, besides = few - FEW * level;
    size_t most = mark_listed(LEVELS);
    need_of(FEW, few > mark_opened(FEW), "listing them costs more than opening");

    for (int groups = 1; groups < LEVELS; groups++) {
        size_t opened = mark_opened(groups), walked = besides + (size_t)groups * level;
        need_of(groups, mark_listed(groups) == (walked > opened ? walked : opened), "each level costs the same");
    }
    need_of(LEVELS, most <= besides + LEVELS * level, "the last one, in which no group is entered, costs no more");
    for (size_t i = 0; i < sizeof too_many / sizeof *too_many; i++)
        need_of(too_many[i], mark_refused(1, too_many[i], HDF4_DEEP) < most + level, "refusing them costs no further level");

    printf("hdf4_list_group keeps %zu bytes for each level and %zu besides, %zu to open; that is %zu for %d levels, the most\n", level,
           besides, mark_opened(1), most, LEVELS);
    return 0;
}
