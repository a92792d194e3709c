/* Makes every call of the library with arguments that differ from one another, and compares each number of its answer, and all that it
 * wrote, with what is written down here. */
#include <stdio.h>
#include <string.h>

#include "hdf4.h"
#include "bytes.h"
#include "file.h"
#include "need.h"

enum { BEHIND = 0xee };

static uint8_t file[FILE_LENGTH];
static uint8_t small[SMALL_LENGTH];
static uint8_t linked[LINKED_LENGTH];
static uint8_t low[LITTLE_ENDIAN_LENGTH];
static uint8_t out[200];

/* A lent output before a call. */
static void fill(void)
{
    memset(out, BEHIND, sizeof out);
}

/* Whether the output has these bytes at its front, and behind them what it had. */
static int holds(const void *bytes, size_t length)
{
    uint8_t expected[sizeof out];
    memset(expected, BEHIND, sizeof expected);
    memcpy(expected, bytes, length);
    return memcmp(out, expected, sizeof out) == 0;
}

static void open_and_find(void)
{
    hdf4_open_answer o = hdf4_open(file, 398);
    need(o.number == 0 && o.place == 0 && o.blocks == 2 && o.slots == 11 && o.live == 9, "hdf4_open");
    o = hdf4_open(file, 397);
    need(o.number == HDF4_OUTSIDE && o.place == 124 && o.blocks == 0 && o.slots == 0 && o.live == 0, "hdf4_open, refused");

    hdf4_find_answer f = hdf4_find(file, 398, 1965, 5);
    need(f.number == 0 && f.place == 0 && f.slot == 58, "hdf4_find");
    f = hdf4_find(file, 397, 1965, 5);
    need(f.number == HDF4_OUTSIDE && f.place == 124 && f.slot == 0, "hdf4_find, refused");

    uint32_t table[37];
    memset(table, BEHIND, sizeof table);
    hdf4_list_answer l = hdf4_list(file, 398, table, 37);
    need(l.number == 0 && l.place == 0 && l.elements == 9, "hdf4_list");
    need(memcmp(table, file_slots, sizeof file_slots) == 0 && table[36] == 0xeeeeeeee, "the table of hdf4_list");
    l = hdf4_list(file, 397, table, 37);
    need(l.number == HDF4_OUTSIDE && l.place == 124 && l.elements == 0, "hdf4_list, refused");
    need(hdf4_list(file, 398, table, 35).number == HDF4_SMALL, "hdf4_list without room");
}

static void view_and_choose(void)
{
    hdf4_view_answer v = hdf4_view(file, 398, 100, 1);
    need(v.number == 0 && v.place == 0 && v.offset == 367 && v.length == 9, "hdf4_view");
    v = hdf4_view(file, 398, 100, 9);
    need(v.number == HDF4_STORAGE && v.place == 124 && v.offset == 0 && v.length == 0, "hdf4_view, refused");

    hdf4_choose_answer h = hdf4_choose(small, 37, file, 398, 1965, 5);
    need(h.number == 0 && h.place == 0 && h.which == 2 && h.offset == 227 && h.length == 18, "hdf4_choose, the fallback");
    h = hdf4_choose(small, 37, file, 398, 100, 1);
    need(h.number == 0 && h.place == 0 && h.which == 1 && h.offset == 34 && h.length == 3, "hdf4_choose, the current one");
    h = hdf4_choose(small, 37, file, 397, 100, 1);
    need(h.number == HDF4_OUTSIDE && h.place == 124 && h.which == 0 && h.offset == 0 && h.length == 0, "hdf4_choose, refused");
}

/* The length of an element, also where its second block is missing. */
static void size(void)
{
    hdf4_size_answer s = hdf4_size(linked, 77, 302, 4);
    need(s.number == 0 && s.place == 0 && s.length == 5, "hdf4_size");
    s = hdf4_size(file, 398, 100, 9);
    need(s.number == HDF4_STORAGE && s.place == 124 && s.length == 0, "hdf4_size, refused");
}

/* Whether a copy answers these numbers. */
static int copies(hdf4_copy_answer answer, uint64_t number, uint64_t place, uint64_t length, uint64_t index)
{
    return answer.number == number && answer.place == place && answer.length == length && answer.index == index;
}

static void copy(void)
{
    fill();
    need(copies(hdf4_copy(file, 398, 100, 1, out, 10), 0, 0, 9, 0) && holds("hub roads", 9), "hdf4_copy");
    fill();
    need(copies(hdf4_copy(file, 398, 100, 9, out, 10), HDF4_STORAGE, 124, 0, 0) && holds("", 0), "hdf4_copy, refused");
    need(copies(hdf4_copy(file, 398, 100, 1, out, 8), HDF4_SMALL, 0, 0, 0), "hdf4_copy without room");

    need(copies(hdf4_copy(linked, 77, 302, 4, out, 5), HDF4_NO_BLOCK, 34, 0, 1) && holds("", 0), "hdf4_copy without block 1");
    linked[55 + 7] = 3;
    need(copies(hdf4_copy(linked, 77, 302, 4, out, 5), 0, 0, 3, 0) && holds("hub", 3), "hdf4_copy of block 0 alone");
}

/* Two desks, the second of which replaces what the first one added. */
enum { FIRST_DESK = 0x01020304, SECOND_DESK = 65543 };

static void edit(uint8_t *buffer)
{
    static const uint8_t mark[] = {0x2a, 0x2b, 0x2c}, other[] = {5, 4, 3, 2, 1};
    hdf4_edit_answer e = hdf4_add(buffer, 400, 37, FIRST_DESK, 40000, 5, mark, 3);
    need(e.number == 0 && e.place == 0 && e.length == 76, "hdf4_add");
    need(hdf4_find(buffer, 76, 40000, 5).slot == 22 && memcmp(buffer + 37, mark, 3) == 0, "what hdf4_add wrote");
    need(memcmp(buffer + 68, "\1\2\3\4BAC2", 8) == 0, "the desk that hdf4_add wrote");
    need(buffer[76] == BEHIND, "what is behind the new image");

    e = hdf4_replace(buffer, 400, 76, SECOND_DESK, 40000, 5, other, 4);
    need(e.number == 0 && e.place == 0 && e.length == 116, "hdf4_replace");
    hdf4_view_answer v = hdf4_view(buffer, 116, 40000, 5);
    need(v.offset == 76 && v.length == 4 && memcmp(buffer + 76, other, 4) == 0, "what hdf4_replace wrote");
    need(memcmp(buffer + 108, "\0\1\0\7BAC2", 8) == 0, "the desk that hdf4_replace wrote");

    e = hdf4_remove(buffer, 400, 116, FIRST_DESK, 100, 1);
    need(e.number == 0 && e.place == 0 && e.length == 152, "hdf4_remove");
    need(hdf4_find(buffer, 152, 100, 1).number == HDF4_ABSENT, "what hdf4_remove left");
    need(hdf4_find(buffer, 152, 40000, 5).number == 0, "what hdf4_remove let be");
    need(memcmp(buffer + 144, "\1\2\3\4BAC2", 8) == 0, "the desk that hdf4_remove wrote");
}

/* Each desk undoes its own edits alone. */
static void undo(uint8_t *buffer)
{
    buffer[151] ^= 1;
    hdf4_edit_answer e = hdf4_undo(buffer, 400, 152, FIRST_DESK);
    need(e.number == HDF4_NO_EDIT && e.place == 0 && e.length == 0, "hdf4_undo, refused");
    buffer[151] ^= 1;
    buffer[143] ^= 1;
    e = hdf4_undo(buffer, 400, 152, FIRST_DESK);
    need(e.number == HDF4_BAD_TRAILER && e.place == 116 && e.length == 0, "hdf4_undo of a broken trailer");
    buffer[143] ^= 1;
    e = hdf4_undo(buffer, 400, 152, SECOND_DESK);
    need(e.number == HDF4_OTHER_DESK && e.place == 116 && e.length == 0, "hdf4_undo by another desk");

    e = hdf4_undo(buffer, 400, 152, FIRST_DESK);
    need(e.number == 0 && e.place == 0 && e.length == 116, "hdf4_undo");
    need(hdf4_undo(buffer, 400, 116, FIRST_DESK).number == HDF4_OTHER_DESK, "hdf4_undo of another desk's edit");
    need(hdf4_undo(buffer, 400, 116, SECOND_DESK).length == 76, "hdf4_undo by the other desk");
    need(hdf4_undo(buffer, 400, 76, FIRST_DESK).length == 37 && memcmp(buffer, small, sizeof small) == 0, "the image as it was");
}

static void edit_and_undo(void)
{
    uint8_t buffer[400];
    memset(buffer, BEHIND, sizeof buffer);
    memcpy(buffer, small, sizeof small);
    edit(buffer);
    undo(buffer);
}

/* An image that has more bytes than the buffer. */
static void past_buffer(void)
{
    static const uint8_t mark[] = {0x2a, 0x2b, 0x2c};
    uint8_t buffer[37];
    memcpy(buffer, small, sizeof small);
    need(hdf4_add(buffer, 36, 37, 7, 40000, 5, mark, 3).number == HDF4_TOO_LONG, "hdf4_add of a longer image than the buffer");
    need(hdf4_replace(buffer, 36, 37, 7, 100, 1, mark, 3).number == HDF4_TOO_LONG, "hdf4_replace of a longer image than the buffer");
    need(hdf4_remove(buffer, 36, 37, 7, 100, 1).number == HDF4_TOO_LONG, "hdf4_remove from a longer image than the buffer");
    need(hdf4_undo(buffer, 36, 37, 7).number == HDF4_TOO_LONG, "hdf4_undo of a longer image than the buffer");
}

/* The trailer of an edit from before trailers named a desk: 40000/5 with one byte at 37, in the free slot of the small file. */
static void old_trailer(void)
{
    uint8_t buffer[70] = {0};
    memcpy(buffer, small, sizeof small);
    put_slot(buffer + 22, 40000, 5, 37, 1);
    buffer[37] = 0x2a;
    put_32(buffer + 38, 22);
    put_32(buffer + 42, 12);
    put_slot(buffer + 46, 1, 0, 0, 0);
    put_32(buffer + 58, 37);
    memcpy(buffer + 66, "BACK", 4);

    hdf4_edit_answer e = hdf4_undo(buffer, 70, 70, 7);
    need(e.number == HDF4_OTHER_DESK && e.place == 38 && e.length == 0, "hdf4_undo of an old trailer by desk 7");
    e = hdf4_undo(buffer, 70, 70, 0);
    need(e.number == 0 && e.place == 0 && e.length == 37 && memcmp(buffer, small, 37) == 0, "hdf4_undo of an old trailer by desk 0");
}

/* 302/7 in the free slot of the small file, named and not stored: it is found and listed and not read, and an edit stores it. */
static void not_stored(void)
{
    static const uint8_t mark[] = {0x2a, 0x2b, 0x2c};
    static const uint32_t known[8] = {100, 1, 34, 3, 302, 7, UINT32_MAX, UINT32_MAX};
    uint8_t buffer[200] = {0};
    uint32_t table[8];
    memcpy(buffer, small, sizeof small);
    put_slot(buffer + 22, 302, 7, -1, -1);

    need(hdf4_open(buffer, 37).live == 2 && hdf4_find(buffer, 37, 302, 7).slot == 22, "hdf4_find of what is not stored");
    need(hdf4_list(buffer, 37, table, 8).elements == 2 && memcmp(table, known, sizeof known) == 0, "hdf4_list of what is not stored");
    hdf4_view_answer v = hdf4_view(buffer, 37, 302, 7);
    need(v.number == HDF4_NOT_STORED && v.place == 22 && v.offset == 0 && v.length == 0, "hdf4_view of what is not stored");
    hdf4_dimension_answer d = hdf4_read_dimension(buffer, 37, 302, 7);
    need(d.number == HDF4_NOT_STORED && d.place == 22 && d.x == 0, "hdf4_read_dimension of what is not stored");
    need(hdf4_choose(buffer, 37, small, 37, 302, 7).number == HDF4_NOT_STORED, "hdf4_choose of what is not stored");
    need(copies(hdf4_copy(buffer, 37, 302, 7, out, 0), HDF4_NOT_STORED, 22, 0, 0), "hdf4_copy of what is not stored");

    need(hdf4_add(buffer, 200, 37, 9, 302, 7, mark, 3).number == HDF4_PRESENT, "hdf4_add of what is not stored");
    need(hdf4_replace(buffer, 200, 37, 9, 302, 7, mark, 3).length == 76, "hdf4_replace of what is not stored");
    need(hdf4_view(buffer, 76, 302, 7).offset == 37 && hdf4_undo(buffer, 200, 76, 9).length == 37, "what is stored then");
    need(hdf4_view(buffer, 37, 302, 7).number == HDF4_NOT_STORED, "what is not stored after an undo");
}

/* The room that an edit asks for at the most: it is granted with so much, and refused with a byte less. */
static void edit_room(void)
{
    static const uint8_t data[] = {7, 6, 5, 4};
    uint8_t buffer[76 + 4 + HDF4_EDIT_ROOM] = {0};
    memcpy(buffer, small, sizeof small);
    need(hdf4_add(buffer, sizeof buffer, 37, 8, 40000, 5, data, 3).length == 76, "the last free slot");
    need(hdf4_add(buffer, sizeof buffer - 1, 76, 8, 40000, 6, data, 4).number == HDF4_NO_ROOM, "a byte less than HDF4_EDIT_ROOM");
    need(hdf4_add(buffer, sizeof buffer, 76, 8, 40000, 6, data, 4).length == sizeof buffer, "HDF4_EDIT_ROOM");
}

static void records(void)
{
    hdf4_number_type_answer t = hdf4_read_number_type(file, 398, 7);
    need(t.number == 0 && t.place == 0, "hdf4_read_number_type");
    need(t.version == 1 && t.type == 24 && t.width == 32 && t.number_class == 4, "the number type");
    t = hdf4_read_number_type(file, 397, 7);
    need(t.number == HDF4_OUTSIDE && t.place == 124 && t.version == 0, "hdf4_read_number_type, refused");
    fill();
    hdf4_pack_answer p = hdf4_pack_number_type(1, 24, 32, 4, out, 5);
    need(p.number == 0 && p.place == 0 && p.length == 4 && holds(number_type, 4), "hdf4_pack_number_type");
    p = hdf4_pack_number_type(1, 24, 32, 4, out, 3);
    need(p.number == HDF4_SMALL && p.place == 0 && p.length == 0, "hdf4_pack_number_type, refused");

    hdf4_dimension_answer d = hdf4_read_dimension(file, 398, 300, 2);
    need(d.number == 0 && d.place == 0 && d.x == 12 && d.y == 10 && d.type_tag == 106 && d.type_ref == 7, "hdf4_read_dimension");
    need(d.elements == 3 && d.interlace == 1 && d.compression_tag == 11 && d.compression_ref == 5, "the dimension");
    d = hdf4_read_dimension(file, 398, 100, 1);
    need(d.number == HDF4_RECORD && d.place == 112 && d.x == 0, "hdf4_read_dimension, refused");
    fill();
    p = hdf4_pack_dimension(12, 10, 106, 7, 3, 1, 11, 5, out, 21);
    need(p.length == 20 && holds(dimension, 20), "hdf4_pack_dimension");

    uint32_t sizes[3] = {0, 0, 77};
    uint16_t pairs[7] = {0, 0, 0, 0, 0, 0, 77};
    static const uint16_t known[7] = {106, 7, 108, 9, 109, 13, 77};
    hdf4_array_answer a = hdf4_read_array(file, 398, 8, sizes, 3, pairs, 7);
    need(a.number == 0 && a.place == 0 && a.rank == 2, "hdf4_read_array");
    need(sizes[0] == 40 && sizes[1] == 50 && sizes[2] == 77 && memcmp(pairs, known, sizeof known) == 0, "the array");
    need(hdf4_read_array(file, 398, 8, sizes, 1, pairs, 7).number == HDF4_SMALL, "hdf4_read_array without room for sizes");
    need(hdf4_read_array(file, 398, 8, sizes, 3, pairs, 5).number == HDF4_SMALL, "hdf4_read_array without room for pairs");
    a = hdf4_read_array(file, 397, 8, sizes, 3, pairs, 7);
    need(a.number == HDF4_OUTSIDE && a.place == 124 && a.rank == 0, "hdf4_read_array, refused");
    fill();
    p = hdf4_pack_array(sizes, 2, pairs, 6, out, 23);
    need(p.length == 22 && holds(array, 22), "hdf4_pack_array");
}

static void groups(void)
{
    static const uint16_t known[5] = {1965, 5, 300, 2, 77}, below[7] = {1965, 5, 1962, 4, 300, 2, 77};
    uint16_t members[5] = {0, 0, 0, 0, 77}, list[7] = {0, 0, 0, 0, 0, 0, 77};

    hdf4_group_answer g = hdf4_read_group(file, 398, 3, members, 5);
    need(g.number == 0 && g.place == 0 && g.members == 2 && memcmp(members, known, sizeof known) == 0, "hdf4_read_group");
    need(g.name_offset == 206 && g.name_length == 5 && g.class_offset == 213 && g.class_length == 6, "the names of a group");
    need(g.extension_tag == 21 && g.extension_ref == 22 && g.version == 3 && g.more == 23, "the end of a group");
    g = hdf4_read_group(file, 397, 3, members, 5);
    need(g.number == HDF4_OUTSIDE && g.place == 124 && g.members == 0, "hdf4_read_group, refused");
    need(hdf4_read_group(file, 398, 3, members, 3).number == HDF4_SMALL, "hdf4_read_group without room");
    fill();
    hdf4_pack_answer p = hdf4_pack_group(members, 4, (const uint8_t *)"north", 5, (const uint8_t *)"roads!", 6, 21, 22, 3, 23, out, 34);
    need(p.length == 33 && holds(group, 33), "hdf4_pack_group");

    hdf4_group_list_answer l = hdf4_list_group(file, 398, 3, list, 7);
    need(l.number == 0 && l.place == 0 && l.pairs == 3 && memcmp(list, below, sizeof below) == 0, "hdf4_list_group");
    l = hdf4_list_group(file, 397, 3, list, 7);
    need(l.number == HDF4_OUTSIDE && l.place == 124 && l.pairs == 0, "hdf4_list_group, refused");
    need(hdf4_list_group(file, 398, 3, list, 5).number == HDF4_SMALL, "hdf4_list_group without room");
}

/* The numbers of the head, whichever call read it. */
static void check_head(hdf4_vdata_answer v, const char *call)
{
    need(v.number == 0 && v.place == 0, call);
    need(v.interlace == 1 && v.records == 4 && v.record_size == 14 && v.fields == 2, "the start of a head");
    need(v.name_offset == 288 && v.name_length == 8 && v.class_offset == 298 && v.class_length == 5, "the names of a head");
    need(v.extension_tag == 31 && v.extension_ref == 32 && v.version == 3 && v.more == 33, "the end of a head");
}

static void vdatas(void)
{
    static const uint16_t known[9] = {22, 6, 0, 3, 5, 8, 6, 2, 77}, lengths[2] = {7, 4};
    uint16_t fields[9] = {0, 0, 0, 0, 0, 0, 0, 0, 77};
    uint32_t names[5] = {0, 0, 0, 0, 77};
    static const uint32_t places[5] = {273, 7, 282, 4, 77};
    check_head(hdf4_read_vdata(file, 398, 4, fields, 9, names, 5), "hdf4_read_vdata");
    need(memcmp(fields, known, sizeof known) == 0 && memcmp(names, places, sizeof places) == 0, "the lists of hdf4_read_vdata");
    need(hdf4_read_vdata(file, 398, 4, fields, 7, names, 5).number == HDF4_SMALL, "hdf4_read_vdata without room for fields");
    need(hdf4_read_vdata(file, 398, 4, fields, 9, names, 3).number == HDF4_SMALL, "hdf4_read_vdata without room for names");

    hdf4_field table[2];
    check_head(hdf4_read_fields(file, 398, 4, table, 2), "hdf4_read_fields");
    need(table[0].type == 22 && table[0].size == 6 && table[0].offset == 0 && table[0].order == 3, "the first field");
    need(table[0].name_offset == 273 && table[0].name_length == 7, "the first field's name");
    need(table[1].type == 5 && table[1].size == 8 && table[1].offset == 6 && table[1].order == 2, "the second field");
    need(table[1].name_offset == 282 && table[1].name_length == 4, "the second field's name");
    hdf4_vdata_answer v = hdf4_read_fields(file, 397, 4, table, 2);
    need(v.number == HDF4_OUTSIDE && v.place == 124 && v.interlace == 0, "hdf4_read_fields, refused");
    need(hdf4_read_fields(file, 398, 4, table, 1).number == HDF4_SMALL, "hdf4_read_fields without room");

    fill();
    hdf4_pack_answer p = hdf4_pack_vdata(1, 4, 14, fields, 8, lengths, 2, (const uint8_t *)"heightswind", 11,
                                         (const uint8_t *)"stations", 8, (const uint8_t *)"track", 5, 31, 32, 3, 33, out, 67);
    need(p.length == 66 && holds(head, 66), "hdf4_pack_vdata");

    hdf4_value_answer x = hdf4_read_value(file, 398, 4, 3, 1, 0);
    need(x.number == 0 && x.place == 0 && x.kind == HDF4_FLOAT32 && x.bits == 0x3fc00000, "hdf4_read_value, 1.5");
    x = hdf4_read_value(file, 398, 4, 2, 0, 1);
    need(x.kind == HDF4_SIGNED && x.bits == UINT64_MAX - 1, "hdf4_read_value, -2");
    x = hdf4_read_value(file, 397, 4, 3, 1, 0);
    need(x.number == HDF4_OUTSIDE && x.place == 124 && x.kind == 0 && x.bits == 0, "hdf4_read_value, refused");
    need(hdf4_read_value(file, 398, 4, 1, 3, 0).number == HDF4_NO_VALUE, "hdf4_read_value of no field");
}

static void columns(void)
{
    static const uint64_t winds[5] = {0, 0, 0, 0x3fc00000, 77}, heights[5] = {0, 0, UINT64_MAX - 1, 0, 77};
    uint64_t values[5] = {77, 77, 77, 77, 77};
    hdf4_column_answer c = hdf4_read_column(file, 397, 4, 1, 0, values, 5);
    need(c.number == HDF4_OUTSIDE && c.place == 124 && c.kind == 0 && c.records == 0, "hdf4_read_column, refused");
    need(hdf4_read_column(file, 398, 4, 2, 0, values, 5).number == HDF4_NO_VALUE, "hdf4_read_column of no field");
    need(hdf4_read_column(file, 398, 4, 1, 2, values, 5).number == HDF4_NO_VALUE, "hdf4_read_column of no component");
    need(hdf4_read_column(file, 398, 4, 1, 0, values, 3).number == HDF4_SMALL, "hdf4_read_column without room");
    need(values[0] == 77 && values[3] == 77, "nothing written by hdf4_read_column, refused");
    c = hdf4_read_column(file, 398, 4, 1, 0, values, 5);
    need(c.number == 0 && c.place == 0 && c.kind == HDF4_FLOAT32 && c.records == 4, "hdf4_read_column, floats");
    need(memcmp(values, winds, sizeof winds) == 0, "the values of hdf4_read_column, floats");
    c = hdf4_read_column(file, 398, 4, 0, 1, values, 4);
    need(c.number == 0 && c.kind == HDF4_SIGNED && c.records == 4, "hdf4_read_column, signed");
    need(memcmp(values, heights, sizeof heights) == 0, "the values of hdf4_read_column, signed");
}

/* Four numbers of each field of the Vdata whose numbers stand low byte first: type, size, offset and order. */
static const uint16_t low_fields[10][4] = {
    {16387, 1, 0, 1},  {16388, 1, 1, 1},  {16389, 8, 2, 2},  {16390, 16, 10, 2}, {16404, 1, 26, 1},
    {16405, 1, 27, 1}, {16406, 2, 28, 1}, {16407, 2, 30, 1}, {16408, 4, 32, 1},  {16409, 4, 36, 1},
};

static void little_endian_heads(void)
{
    static const uint16_t lengths[10] = {0};
    static const uint8_t none[1] = {0};
    uint16_t fields[40];
    uint32_t names[20];
    hdf4_field table[10];

    hdf4_vdata_answer v = hdf4_read_vdata(low, 199, 6, fields, 40, names, 20);
    need(v.number == 0 && v.fields == 10 && v.records == 1 && v.record_size == 40, "hdf4_read_vdata, low byte first");
    need(memcmp(fields, low_fields, sizeof fields) == 0, "the types of hdf4_read_vdata, as they are stored");
    v = hdf4_read_fields(low, 199, 6, table, 10);
    need(v.number == 0 && v.fields == 10 && v.records == 1 && v.record_size == 40, "hdf4_read_fields, low byte first");
    for (int i = 0; i < 10; i++) {
        const uint16_t numbers[4] = {table[i].type, table[i].size, table[i].offset, table[i].order};
        need(memcmp(numbers, low_fields[i], sizeof numbers) == 0, "the types of hdf4_read_fields, as they are stored");
    }
    fill();
    hdf4_pack_answer p = hdf4_pack_vdata(0, 1, 40, fields, 40, lengths, 10, none, 0, (const uint8_t *)"low", 3, none, 0, 0, 0, 3, 0,
                                         out, 126);
    need(p.number == 0 && p.length == 125 && holds(little_endian_head, 125), "hdf4_pack_vdata, low byte first");
}

static void little_endian_values(void)
{
    static const struct { uint64_t field, component, kind, bits; } known[12] = {
        {0, 0, HDF4_UNSIGNED, 0xe9},
        {1, 0, HDF4_UNSIGNED, 'n'},
        {2, 0, HDF4_FLOAT32, 0x3fc00000},
        {2, 1, HDF4_FLOAT32, 0x7f800001},
        {3, 0, HDF4_FLOAT64, 0xc004000000000000},
        {3, 1, HDF4_FLOAT64, 0xfff0123456789abc},
        {4, 0, HDF4_SIGNED, 0xffffffffffffff80},
        {5, 0, HDF4_UNSIGNED, 0x80},
        {6, 0, HDF4_SIGNED, 0xfffffffffffffffe},
        {7, 0, HDF4_UNSIGNED, 0xfffe},
        {8, 0, HDF4_SIGNED, 0xffffffff80000001},
        {9, 0, HDF4_UNSIGNED, 0x80000001},
    };
    for (int i = 0; i < 12; i++) {
        hdf4_value_answer x = hdf4_read_value(low, 199, 6, 0, known[i].field, known[i].component);
        need(x.number == 0 && x.place == 0, "hdf4_read_value, low byte first");
        need(x.kind == known[i].kind && x.bits == known[i].bits, "a value that stands low byte first");
        uint64_t bits[2] = {0, 77};
        hdf4_column_answer c = hdf4_read_column(low, 199, 6, known[i].field, known[i].component, bits, 2);
        need(c.number == 0 && c.place == 0 && c.kind == known[i].kind && c.records == 1, "hdf4_read_column, low byte first");
        need(bits[0] == known[i].bits && bits[1] == 77, "a column whose value stands low byte first");
    }
}

/* A type that is not known, also less 16384, in place of 16408. */
static void unknown_types(void)
{
    static const uint16_t codes[4] = {7, 16384, 16391, 32792};
    static const uint16_t lengths[1] = {0};
    static const uint8_t none[1] = {0};
    uint16_t fields[40];
    uint32_t names[20];
    hdf4_field table[10];

    for (int i = 0; i < 4; i++) {
        put_16(low + 60, codes[i]);
        hdf4_vdata_answer v = hdf4_read_vdata(low, 199, 6, fields, 40, names, 20);
        need(v.number == HDF4_TYPE && v.place == 10 && v.fields == 0, "hdf4_read_vdata of an unknown type");
        v = hdf4_read_fields(low, 199, 6, table, 10);
        need(v.number == HDF4_TYPE && v.place == 10 && v.fields == 0, "hdf4_read_fields of an unknown type");
        hdf4_value_answer x = hdf4_read_value(low, 199, 6, 0, 0, 0);
        need(x.number == HDF4_TYPE && x.place == 10 && x.kind == 0 && x.bits == 0, "hdf4_read_value of an unknown type");

        const uint16_t numbers[4] = {codes[i], 4, 0, 1};
        fill();
        hdf4_pack_answer p = hdf4_pack_vdata(0, 1, 4, numbers, 4, lengths, 1, none, 0, none, 0, none, 0, 0, 0, 3, 0, out, 200);
        need(p.number == HDF4_TYPE && p.place == 0 && p.length == 0 && holds("", 0), "hdf4_pack_vdata of an unknown type");
    }
}

static void names(void)
{
#define REFUSAL(name, value) need(strcmp(hdf4_refusal_name(value), #name) == 0, "hdf4_refusal_name of " #name);
#include "expected.h"
    need(strcmp(hdf4_refusal_name(0), "GRANTED") == 0, "hdf4_refusal_name of 0");
    need(strcmp(hdf4_refusal_name(1000), "UNKNOWN") == 0, "hdf4_refusal_name of 1000");
    need(strcmp(hdf4_refusal_name(UINT64_MAX), "UNKNOWN") == 0, "hdf4_refusal_name of the greatest number");
    need(strcmp(hdf4_refusal_text(HDF4_TOO_LONG), "the file is too long") == 0, "hdf4_refusal_text of TOO_LONG");
    need(strcmp(hdf4_refusal_text(HDF4_DEEP), "groups are nested more than 16 deep") == 0, "hdf4_refusal_text of DEEP");
    need(strcmp(hdf4_refusal_text(HDF4_NO_BLOCK), "a linked block of the element is not there") == 0,
         "hdf4_refusal_text of NO_BLOCK");
    for (uint64_t number = 0; number < 100; number++)
        need(hdf4_refusal_text(number)[0] != 0, "hdf4_refusal_text of every number");
    need(strcmp(HDF4_VERSION, "0.3.1") == 0, "HDF4_VERSION");
}

int main(void)
{
    make_file(file);
    make_small(small);
    make_linked(linked);
    make_little_endian(low);
    open_and_find();
    view_and_choose();
    size();
    copy();
    edit_and_undo();
    past_buffer();
    old_trailer();
    not_stored();
    edit_room();
    records();
    groups();
    vdatas();
    columns();
    little_endian_heads();
    little_endian_values();
    unknown_types();
    names();
    printf("all calls answer what is written down\n");
    return 0;
}
