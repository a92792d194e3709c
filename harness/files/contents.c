/* What the library reads of every file, written down for the harness: contents.txt. README.md says what its lines mean. */

#include <dirent.h>
#include <stdlib.h>
#include <string.h>

#include "make.h"

/* How many bytes are read at a time where an element is read in pieces. */
enum { PIECE = 7 };

/* Files that do not open by the rules. Nothing is written of them. */
static const char *const refused[] = {"too_many_blocks.hdf", "two_machine_types.hdf"};

/* ---- Elements ---- */

/* The tag without the mark of extended storage, which those from 16384 to 32767 carry. */
static uint16 base_tag(uint16 tag)
{
    return tag & 0x8000 ? tag : tag & 0x3fff;
}

int16 storage_of(int32 file, uint16 tag, uint16 ref)
{
    int16 kind;
    int32 element = NEED(Hstartread(file, tag, ref));
    NEED(HQueryspecial(element, &kind));
    NEED(Hendaccess(element));
    return kind;
}

int is_stored(int32 file, uint16 tag, uint16 ref)
{
    uint8 room[MOST_BYTES];
    NEED(Hexist(file, tag, ref));
    if (Hlength(file, tag, ref) != FAIL)
        return 1;
    HOLDS(Hgetelement(file, tag, ref, room) == FAIL);
    return 0;
}

/* Reads an element piece by piece. The library counts a block that was never written by what the block before it gave, so that
 * neither Hread nor Hgetelement tells how much it read, and each piece is sought. */
static void read_pieces(int32 file, uint16 tag, uint16 ref, int32 length, uint8 *out)
{
    int32 element = NEED(Hstartread(file, tag, ref));
    for (int32 place = 0; place < length; place += PIECE) {
        NEED(Hseek(element, place, DF_START));
        NEED(Hread(element, length - place < PIECE ? length - place : PIECE, out + place));
    }
    NEED(Hendaccess(element));
}

/* Begins a line about an element. */
static void begin_element(const struct source *source, const char *kind, uint16 tag, uint16 ref)
{
    fprintf(source->out, "%s %s %u %u", source->name, kind, base_tag(tag), ref);
}

/* The bytes of an element. The rooms to read into differ, so that bytes that are not read do too. */
static void record_bytes(const struct source *source, const char *kind, uint16 tag, uint16 ref)
{
    uint8 whole[MOST_BYTES], pieces[MOST_BYTES];
    int32 length = NEED(Hlength(source->file, tag, ref));
    HOLDS(length <= MOST_BYTES);
    memset(whole, 0, sizeof whole);
    memset(pieces, 0xff, sizeof pieces);
    NEED(Hgetelement(source->file, tag, ref, whole));
    read_pieces(source->file, tag, ref, length, pieces);
    begin_element(source, kind, tag, ref);
    fprintf(source->out, " %d%s", (int)length, length > 0 ? " " : "");
    for (int32 i = 0; i < length; i++) {
        HOLDS(whole[i] == pieces[i]);
        fprintf(source->out, "%02x", whole[i]);
    }
    fprintf(source->out, "\n");
}

static void record_element(const struct source *source, uint16 tag, uint16 ref)
{
    int16 kind = storage_of(source->file, tag, ref);
    if (!is_stored(source->file, tag, ref)) {
        begin_element(source, "unstored", tag, ref);
        fprintf(source->out, "\n");
    } else if (kind == 0) {
        record_bytes(source, "plain", tag, ref);
    } else if (kind == SPECIAL_LINKED) {
        record_bytes(source, "linked", tag, ref);
    } else {
        begin_element(source, "special", tag, ref);
        fprintf(source->out, " %d\n", kind);
    }
}

/* ---- Vgroups and Vdatas ---- */

void write_name(FILE *out, const char *name, const char *end)
{
    HOLDS(strpbrk(name, "\"\n") == NULL);
    fprintf(out, " \"%s\"%s", name, end);
}

static void record_group(const struct source *source, uint16 ref)
{
    char name[VGNAMELENMAX + 1], class[VGNAMELENMAX + 1];
    int32 tags[MOST_MEMBERS], refs[MOST_MEMBERS];
    int32 group = NEED(Vattach(source->file, ref, "r"));
    int32 count = NEED(Vntagrefs(group));
    HOLDS(count <= MOST_MEMBERS);
    HOLDS(Vgettagrefs(group, tags, refs, MOST_MEMBERS) == count);
    NEED(Vgetname(group, name));
    NEED(Vgetclass(group, class));
    fprintf(source->out, "%s group %u %d", source->name, ref, (int)NEED(Vgetversion(group)));
    write_name(source->out, name, "");
    write_name(source->out, class, "");
    for (int32 i = 0; i < count; i++)
        fprintf(source->out, " %d/%d", (int)tags[i], (int)refs[i]);
    fprintf(source->out, "\n");
    NEED(Vdetach(group));
}

static void record_field(const struct source *source, uint16 ref, int32 vdata, int32 field)
{
    int type = NEED(VFfieldtype(vdata, field)), order = NEED(VFfieldorder(vdata, field));
    int32 size = NEED(VFfieldesize(vdata, field));
    HOLDS(VFfieldisize(vdata, field) == size);
    fprintf(source->out, "%s field %u %d %d %d", source->name, ref, type, order, (int)size);
    write_name(source->out, VFfieldname(vdata, field), "\n");
}

int write_value(FILE *out, int32 type, const uint8 *place)
{
    union {
        int8 i8;
        int16 i16;
        int32 i32;
        uint8 u8;
        uint16 u16;
        uint32 u32;
        unsigned long long u64;
    } value;
    int size = DFKNTsize(type);
    memcpy(&value, place, size);
    switch (type & ~(DFNT_LITEND | DFNT_NATIVE)) {
    case DFNT_INT8: fprintf(out, " i%d", value.i8); break;
    case DFNT_INT16: fprintf(out, " i%d", value.i16); break;
    case DFNT_INT32: fprintf(out, " i%d", (int)value.i32); break;
    case DFNT_CHAR8:
    case DFNT_UCHAR8:
    case DFNT_UINT8: fprintf(out, " u%u", value.u8); break;
    case DFNT_UINT16: fprintf(out, " u%u", value.u16); break;
    case DFNT_UINT32: fprintf(out, " u%u", (unsigned)value.u32); break;
    case DFNT_FLOAT32: fprintf(out, " f%08x", (unsigned)value.u32); break;
    case DFNT_FLOAT64: fprintf(out, " d%016llx", value.u64); break;
    default: NEED(FAIL);
    }
    return size;
}

static void record_values(const struct source *source, uint16 ref, int32 vdata, int32 records)
{
    uint8 values[MOST_BYTES], *place = values;
    char fields[VSFIELDMAX * (FIELDNAMELENMAX + 1)];
    NEED(VSgetfields(vdata, fields));
    NEED(VSsetfields(vdata, fields));
    HOLDS(records * NEED(VSsizeof(vdata, fields)) <= MOST_BYTES);
    HOLDS(VSread(vdata, values, records, FULL_INTERLACE) == records);
    for (int32 record = 0; record < records; record++) {
        fprintf(source->out, "%s record %u", source->name, ref);
        for (int32 field = 0; field < VFnfields(vdata); field++)
            for (int32 component = 0; component < VFfieldorder(vdata, field); component++)
                place += write_value(source->out, VFfieldtype(vdata, field), place);
        fprintf(source->out, "\n");
    }
}

/* The head of a Vdata, a line a field and, where they are stored plainly, a line a record. */
static void record_vdata(const struct source *source, uint16 ref)
{
    char name[VSNAMELENMAX + 1], class[VSNAMELENMAX + 1];
    int32 records, interlace, size;
    int32 vdata = NEED(VSattach(source->file, ref, "r"));
    NEED(VSinquire(vdata, &records, &interlace, NULL, &size, name));
    NEED(VSgetclass(vdata, class));
    fprintf(source->out, "%s vdata %u %d", source->name, ref, (int)NEED(VSgetversion(vdata)));
    fprintf(source->out, " %d %d %d", (int)interlace, (int)records, (int)size);
    write_name(source->out, name, "");
    write_name(source->out, class, "\n");
    for (int32 field = 0; field < NEED(VFnfields(vdata)); field++)
        record_field(source, ref, vdata, field);
    if (records > 0 && storage_of(source->file, DFTAG_VS, ref) == 0 && is_stored(source->file, DFTAG_VS, ref))
        record_values(source, ref, vdata, records);
    NEED(VSdetach(vdata));
}

/* ---- Files ---- */

/* The Vset interface is started for each head alone: it does not start where a file has a head that is not stored. */
static void record_head(const struct source *source, uint16 tag, uint16 ref)
{
    NEED(Vstart(source->file));
    if (tag == DFTAG_VG)
        record_group(source, ref);
    else
        record_vdata(source, ref);
    NEED(Vend(source->file));
}

static void record_elements(const struct source *source)
{
    uint16 tag = 0, ref = 0;
    int32 offset, length;
    while (Hfind(source->file, DFTAG_WILDCARD, DFREF_WILDCARD, &tag, &ref, &offset, &length, DF_FORWARD) != FAIL) {
        record_element(source, tag, ref);
        if ((tag == DFTAG_VG || tag == DFTAG_VH) && is_stored(source->file, tag, ref))
            record_head(source, tag, ref);
    }
}

void record_contents(void)
{
    record_files("contents.txt", "each file", record_elements);
}

static int is_read(const struct dirent *entry)
{
    const char *end = strrchr(entry->d_name, '.');
    for (int i = 0; i < COUNT(refused); i++)
        if (strcmp(entry->d_name, refused[i]) == 0)
            return 0;
    return end != NULL && strcmp(end, ".hdf") == 0;
}

void record_files(const char *table, const char *what, recorder *record)
{
    struct dirent **files;
    FILE *out = fopen(table, "w");
    int count = NEED(out == NULL ? FAIL : scandir(".", &files, is_read, alphasort));
    fprintf(out, "# What libhdf4 reads of %s. README.md says what the lines mean.\n", what);
    for (int i = 0; i < count; i++) {
        struct source source = {files[i]->d_name, NEED(Hopen(files[i]->d_name, DFACC_READ, 0)), out};
        record(&source);
        NEED(Hclose(source.file));
        free(files[i]);
    }
    free(files);
    NEED(fclose(out));
}
