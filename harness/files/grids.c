/* What the library reads of every data set and image, written down for the harness: grids.txt. README.md says what its lines
 * mean. */

#include <string.h>

#include "make.h"

/* How the numbers are stored, and the word for each. Where they are absent or unstored, the library gives fill values. */
enum storage { ABSENT, UNSTORED, PLAIN, LINKED, EXTERNAL, PACKED, CHUNKED };

static const char *const storage_words[] = {"absent", "unstored", "plain", "linked", "external", "packed", "chunked"};

/* A data set or an image. */
struct grid {
    const char *kind;
    char name[H4_MAX_NC_NAME + 1];
    uint16 tag, ref;
    int32 type, rank, sizes[H4_MAX_VAR_DIMS];
    enum storage storage;
};

/* ---- Groups ---- */

/* The elements that a group names. */
struct group {
    int32 count, tags[MOST_MEMBERS], refs[MOST_MEMBERS];
};

/* Reads a group of tag 720 or 306: pairs of a tag and a reference. */
static struct group read_pairs(int32 file, uint16 tag, uint16 ref)
{
    struct group group = {0};
    uint8 pairs[4 * MOST_MEMBERS], *place = pairs;
    group.count = NEED(Hlength(file, tag, ref)) / 4;
    HOLDS(group.count <= MOST_MEMBERS);
    NEED(Hgetelement(file, tag, ref, pairs));
    for (int32 i = 0; i < group.count; i++) {
        UINT16DECODE(place, group.tags[i]);
        UINT16DECODE(place, group.refs[i]);
    }
    return group;
}

static struct group read_vgroup(int32 file, uint16 ref)
{
    struct group group;
    int32 vgroup = NEED(Vattach(file, ref, "r"));
    group.count = NEED(Vntagrefs(vgroup));
    HOLDS(group.count <= MOST_MEMBERS);
    HOLDS(Vgettagrefs(vgroup, group.tags, group.refs, MOST_MEMBERS) == group.count);
    NEED(Vdetach(vgroup));
    return group;
}

/* The reference of the element of a tag that a group names, 0 where it names none. */
static uint16 member(const struct group *group, uint16 tag)
{
    for (int32 i = 0; i < group->count; i++)
        if (group->tags[i] == tag)
            return (uint16)group->refs[i];
    return 0;
}

/* How the element of a tag that a group names is stored. */
static enum storage storage_in(int32 file, const struct group *group, uint16 tag)
{
    static const enum storage by_kind[] = {[0] = PLAIN,
                                           [SPECIAL_LINKED] = LINKED,
                                           [SPECIAL_EXT] = EXTERNAL,
                                           [SPECIAL_COMP] = PACKED,
                                           [SPECIAL_CHUNKED] = CHUNKED};
    uint16 ref = member(group, tag);
    if (ref == 0 || Hexist(file, tag, ref) == FAIL)
        return ABSENT;
    if (!is_stored(file, tag, ref))
        return UNSTORED;
    int16 kind = storage_of(file, tag, ref);
    HOLDS(kind < COUNT(by_kind) && by_kind[kind] != ABSENT);
    return by_kind[kind];
}

/* ---- Lines ---- */

static void write_grid(const struct source *source, const struct grid *grid)
{
    fprintf(source->out, "%s %s %u/%u %d", source->name, grid->kind, grid->tag, grid->ref, (int)grid->type);
    fprintf(source->out, " %s ", storage_words[grid->storage]);
    for (int32 i = 0; i < grid->rank; i++)
        fprintf(source->out, "%s%d", i > 0 ? "x" : "", (int)grid->sizes[i]);
    write_name(source->out, grid->name, "\n");
}

/* How many bytes the numbers have. There is room for them. */
static int32 length_of(const struct grid *grid)
{
    int32 length = NEED(DFKNTsize(grid->type));
    for (int32 i = 0; i < grid->rank; i++)
        length *= grid->sizes[i];
    HOLDS(length <= MOST_BYTES);
    return length;
}

/* A call that reads the numbers of a data set or an image. */
typedef intn reader(int32 id, struct grid *grid, uint8 *numbers);

/* The numbers. The rooms to read into differ, so that numbers that are not read do too. */
static void record_numbers(const struct source *source, struct grid *grid, int32 id, reader *read)
{
    uint8 numbers[MOST_BYTES], again[MOST_BYTES], *place = numbers;
    int32 length = length_of(grid);
    memset(numbers, 0, sizeof numbers);
    memset(again, 0xff, sizeof again);
    if (read(id, grid, numbers) == FAIL) {
        fprintf(source->out, "%s unread\n", source->name);
        return;
    }
    NEED(read(id, grid, again));
    HOLDS(memcmp(numbers, again, length) == 0);
    fprintf(source->out, "%s numbers", source->name);
    while (place < numbers + length)
        place += write_value(source->out, grid->type, place);
    fprintf(source->out, "\n");
}

/* The line of a data set or an image and, where its numbers are stored, one with them. */
static void record_grid(const struct source *source, struct grid *grid, int32 id, reader *read)
{
    write_grid(source, grid);
    if (grid->storage > UNSTORED)
        record_numbers(source, grid, id, read);
}

/* ---- Data sets ---- */

static intn read_set(int32 set, struct grid *grid, uint8 *numbers)
{
    int32 start[H4_MAX_VAR_DIMS] = {0};
    return SDreaddata(set, start, NULL, grid->sizes, numbers);
}

/* The library makes up data sets that have no group of tag 720: one of each dimension of a file by the older DFSD interface,
 * and one without dimensions, on which SDiscoordvar crashes, of each element of tag 700. Nothing is written of them. */
static void record_set(const struct source *source, int32 set)
{
    struct grid grid = {.tag = DFTAG_NDG, .ref = (uint16)NEED(SDidtoref(set))};
    int32 attributes;
    NEED(SDgetinfo(set, grid.name, &grid.rank, grid.sizes, &grid.type, &attributes));
    int is_scale = grid.rank > 0 && SDiscoordvar(set);
    if (Hexist(source->file, grid.tag, grid.ref) == FAIL) {
        HOLDS(is_scale || grid.rank == 0);
        return;
    }
    struct group group = read_pairs(source->file, grid.tag, grid.ref);
    grid.kind = is_scale ? "scale" : "array";
    grid.storage = storage_in(source->file, &group, DFTAG_SD);
    record_grid(source, &grid, set, read_set);
}

static void record_sets(const struct source *source)
{
    int32 sets, attributes;
    int32 sd = NEED(SDstart(source->name, DFACC_READ));
    NEED(SDfileinfo(sd, &sets, &attributes));
    for (int32 i = 0; i < sets; i++) {
        int32 set = NEED(SDselect(sd, i));
        record_set(source, set);
        NEED(SDendaccess(set));
    }
    NEED(SDend(sd));
}

/* ---- Images ---- */

/* Whether there is a Vgroup of an image with a reference. */
static int is_image_vgroup(int32 file, uint16 ref)
{
    char class[VGNAMELENMAX + 1];
    if (Hexist(file, DFTAG_VG, ref) == FAIL)
        return 0;
    int32 vgroup = NEED(Vattach(file, ref, "r"));
    NEED(Vgetclass(vgroup, class));
    NEED(Vdetach(vgroup));
    return strcmp(class, RI_NAME) == 0;
}

/* The tag of what an image goes by: its Vgroup, its group of tag 306, or its element alone. A Vgroup and a group may have the
 * same reference. The image of the Vgroup comes first then, and is the one that the library finds by the reference. */
static uint16 tag_of_image(int32 file, int32 gr, int32 index, uint16 ref)
{
    if (is_image_vgroup(file, ref) && NEED(GRreftoindex(gr, ref)) == index)
        return DFTAG_VG;
    return Hexist(file, DFTAG_RIG, ref) == FAIL ? DFTAG_RI : DFTAG_RIG;
}

static struct group group_of_image(int32 file, uint16 tag, uint16 ref)
{
    if (tag == DFTAG_VG)
        return read_vgroup(file, ref);
    if (tag == DFTAG_RIG)
        return read_pairs(file, tag, ref);
    return (struct group){1, {tag}, {ref}};
}

/* Whether the dimensions (300) that a group names have a tag of compression. */
static int names_compression(int32 file, const struct group *group)
{
    uint8 dimensions[20];
    uint16 ref = member(group, DFTAG_ID);
    if (ref == 0)
        return 0;
    HOLDS(Hgetelement(file, DFTAG_ID, ref, dimensions) == COUNT(dimensions));
    return dimensions[16] != 0 || dimensions[17] != 0;
}

static enum storage storage_of_image(int32 file, const struct group *group)
{
    int compressed = member(group, DFTAG_CI) != 0;
    enum storage storage = storage_in(file, group, compressed ? DFTAG_CI : DFTAG_RI);
    return storage > UNSTORED && (compressed || names_compression(file, group)) ? PACKED : storage;
}

static struct grid inquire_image(int32 file, int32 gr, int32 index, int32 image)
{
    struct grid grid = {.kind = "image", .rank = 3};
    int32 components, interlace, sizes[2], attributes;
    NEED(GRgetiminfo(image, grid.name, &components, &grid.type, &interlace, sizes, &attributes));
    grid.ref = (uint16)NEED(GRidtoref(image));
    grid.tag = tag_of_image(file, gr, index, grid.ref);
    grid.sizes[0] = sizes[1];
    grid.sizes[1] = sizes[0];
    grid.sizes[2] = components;
    struct group group = group_of_image(file, grid.tag, grid.ref);
    grid.storage = storage_of_image(file, &group);
    return grid;
}

static intn read_image(int32 image, struct grid *grid, uint8 *numbers)
{
    int32 start[] = {0, 0}, sizes[] = {grid->sizes[1], grid->sizes[0]};
    NEED(GRreqimageil(image, MFGR_INTERLACE_PIXEL));
    return NEED(GRreadimage(image, start, NULL, sizes, numbers));
}

static void record_image(const struct source *source, int32 gr, int32 index)
{
    int32 image = NEED(GRselect(gr, index));
    struct grid grid = inquire_image(source->file, gr, index, image);
    record_grid(source, &grid, image, read_image);
    NEED(GRendaccess(image));
}

static void record_images(const struct source *source)
{
    int32 images, attributes;
    int32 gr = NEED(GRstart(source->file));
    NEED(GRfileinfo(gr, &images, &attributes));
    for (int32 i = 0; i < images; i++)
        record_image(source, gr, i);
    NEED(GRend(gr));
}

/* ---- Files ---- */

/* Where a file has the head of a Vgroup or a Vdata that is not stored, the interfaces do not start. */
static void record_grids_of(const struct source *source)
{
    if (Vstart(source->file) == FAIL) {
        HOLDS(SDstart(source->name, DFACC_READ) == FAIL);
        return;
    }
    record_sets(source);
    record_images(source);
    NEED(Vend(source->file));
}

void record_grids(void)
{
    record_files("grids.txt", "each data set and image", record_grids_of);
}
