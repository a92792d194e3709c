#include <string.h>

#include "bytes.h"
#include "empty.h"
#include "file.h"
#include "need.h"

/* Keeps the numbers of an answer, the first of which must be this one. */
static void keep(struct answers *answers, const char *call, uint64_t number, const void *answer, size_t size)
{
    uint64_t *kept = answers->numbers + answers->count;
    need(answers->count + size / 8 <= sizeof answers->numbers / 8, "room for the answers");
    memcpy(kept, answer, size);
    answers->count += size / 8;
    need(kept[0] == number, call);
}

#define KEEP(number, kind, call)                              \
    do {                                                      \
        kind answer = call;                                   \
        keep(answers, #call, number, &answer, sizeof answer); \
    } while (0)

static uint8_t whole[FILE_LENGTH], file[FILE_LENGTH], small[SMALL_LENGTH];

static void read_all(uint8_t *b, uint16_t *s, uint32_t *l, uint64_t *u, hdf4_field *f, struct answers *answers)
{
    uint8_t bytes[8];
    uint16_t shorts[8];
    uint32_t longs[8];
    uint64_t numbers[8];
    hdf4_field fields[8];

    KEEP(HDF4_NOT_HDF, hdf4_open_answer, hdf4_open(b, 0));
    KEEP(HDF4_NOT_HDF, hdf4_find_answer, hdf4_find(b, 0, 100, 1));
    KEEP(HDF4_NOT_HDF, hdf4_list_answer, hdf4_list(b, 0, longs, 8));
    KEEP(HDF4_SMALL, hdf4_list_answer, hdf4_list(file, FILE_LENGTH, l, 0));
    KEEP(HDF4_NOT_HDF, hdf4_list_answer, hdf4_list(b, 0, l, 0));
    KEEP(HDF4_NOT_HDF, hdf4_view_answer, hdf4_view(b, 0, 100, 1));
    KEEP(HDF4_NOT_HDF, hdf4_size_answer, hdf4_size(b, 0, 100, 1));
    KEEP(HDF4_NOT_HDF, hdf4_copy_answer, hdf4_copy(b, 0, 100, 1, bytes, 8));
    KEEP(HDF4_SMALL, hdf4_copy_answer, hdf4_copy(file, FILE_LENGTH, 100, 1, b, 0));
    KEEP(HDF4_STORAGE, hdf4_copy_answer, hdf4_copy(file, FILE_LENGTH, 100, 9, b, 0));
    KEEP(HDF4_NOT_HDF, hdf4_copy_answer, hdf4_copy(b, 0, 100, 1, b, 0));
    KEEP(HDF4_NOT_HDF, hdf4_choose_answer, hdf4_choose(b, 0, file, FILE_LENGTH, 100, 1));
    KEEP(HDF4_NOT_HDF, hdf4_choose_answer, hdf4_choose(file, FILE_LENGTH, b, 0, 100, 1));
    KEEP(HDF4_NOT_HDF, hdf4_choose_answer, hdf4_choose(b, 0, b, 0, 100, 1));
    KEEP(HDF4_NOT_HDF, hdf4_number_type_answer, hdf4_read_number_type(b, 0, 7));
    KEEP(HDF4_NOT_HDF, hdf4_dimension_answer, hdf4_read_dimension(b, 0, 300, 2));
    KEEP(HDF4_NOT_HDF, hdf4_array_answer, hdf4_read_array(b, 0, 8, longs, 8, shorts, 8));
    KEEP(HDF4_SMALL, hdf4_array_answer, hdf4_read_array(file, FILE_LENGTH, 8, l, 0, shorts, 8));
    KEEP(HDF4_SMALL, hdf4_array_answer, hdf4_read_array(file, FILE_LENGTH, 8, longs, 8, s, 0));
    KEEP(HDF4_SMALL, hdf4_array_answer, hdf4_read_array(file, FILE_LENGTH, 8, l, 0, s, 0));
    KEEP(HDF4_NOT_HDF, hdf4_group_answer, hdf4_read_group(b, 0, 3, shorts, 8));
    KEEP(HDF4_SMALL, hdf4_group_answer, hdf4_read_group(file, FILE_LENGTH, 3, s, 0));
    KEEP(0, hdf4_group_answer, hdf4_read_group(file, FILE_LENGTH, 6, s, 0));
    KEEP(HDF4_NOT_HDF, hdf4_vdata_answer, hdf4_read_vdata(b, 0, 4, shorts, 8, longs, 8));
    KEEP(HDF4_SMALL, hdf4_vdata_answer, hdf4_read_vdata(file, FILE_LENGTH, 4, s, 0, longs, 8));
    KEEP(HDF4_SMALL, hdf4_vdata_answer, hdf4_read_vdata(file, FILE_LENGTH, 4, shorts, 8, l, 0));
    KEEP(HDF4_SMALL, hdf4_vdata_answer, hdf4_read_vdata(file, FILE_LENGTH, 4, s, 0, l, 0));
    KEEP(HDF4_NOT_HDF, hdf4_vdata_answer, hdf4_read_fields(b, 0, 4, fields, 8));
    KEEP(HDF4_NOT_HDF, hdf4_vdata_answer, hdf4_read_fields(b, 0, 4, f, 0));
    KEEP(HDF4_SMALL, hdf4_vdata_answer, hdf4_read_fields(file, FILE_LENGTH, 4, f, 0));
    KEEP(HDF4_NOT_HDF, hdf4_value_answer, hdf4_read_value(b, 0, 4, 3, 1, 0));
    KEEP(HDF4_NOT_HDF, hdf4_column_answer, hdf4_read_column(b, 0, 4, 1, 0, numbers, 8));
    KEEP(HDF4_NOT_HDF, hdf4_column_answer, hdf4_read_column(b, 0, 4, 1, 0, u, 0));
    KEEP(HDF4_SMALL, hdf4_column_answer, hdf4_read_column(whole, FILE_LENGTH, 4, 1, 0, u, 0));
    KEEP(0, hdf4_column_answer, hdf4_read_column(file, FILE_LENGTH, 4, 1, 0, u, 0));
    KEEP(HDF4_NOT_HDF, hdf4_group_list_answer, hdf4_list_group(b, 0, 3, shorts, 8));
    KEEP(HDF4_SMALL, hdf4_group_list_answer, hdf4_list_group(file, FILE_LENGTH, 3, s, 0));
    KEEP(0, hdf4_group_list_answer, hdf4_list_group(file, FILE_LENGTH, 6, s, 0));
}

static void edit_all(uint8_t *b, struct answers *answers)
{
    static const uint8_t data[3] = {1, 2, 3};
    uint8_t buffer[400] = {0};
    memcpy(buffer, small, sizeof small);

    KEEP(HDF4_NOT_HDF, hdf4_edit_answer, hdf4_add(b, 0, 0, 9, 40000, 5, data, 3));
    KEEP(HDF4_TOO_LONG, hdf4_edit_answer, hdf4_add(b, 0, 37, 9, 40000, 5, data, 3));
    KEEP(HDF4_NOT_HDF, hdf4_edit_answer, hdf4_add(b, 0, 0, 9, 40000, 5, b, 0));
    KEEP(0, hdf4_edit_answer, hdf4_add(buffer, 400, 37, 9, 40000, 5, b, 0));
    KEEP(HDF4_NOT_HDF, hdf4_edit_answer, hdf4_replace(b, 0, 0, 9, 100, 1, data, 3));
    KEEP(HDF4_NOT_HDF, hdf4_edit_answer, hdf4_replace(b, 0, 0, 9, 100, 1, b, 0));
    KEEP(0, hdf4_edit_answer, hdf4_replace(buffer, 400, 73, 9, 100, 1, b, 0));
    KEEP(HDF4_NOT_HDF, hdf4_edit_answer, hdf4_remove(b, 0, 0, 9, 100, 1));
    KEEP(HDF4_NOT_HDF, hdf4_edit_answer, hdf4_undo(b, 0, 0, 9));
    KEEP(HDF4_TOO_LONG, hdf4_edit_answer, hdf4_undo(b, 0, 37, 9));
    KEEP(0, hdf4_view_answer, hdf4_view(buffer, 109, 40000, 5));
    KEEP(0, hdf4_size_answer, hdf4_size(buffer, 109, 40000, 5));
    KEEP(0, hdf4_copy_answer, hdf4_copy(buffer, 109, 40000, 5, b, 0));
}

static void pack_all(uint8_t *b, uint16_t *s, uint32_t *l, struct answers *answers)
{
    static const uint16_t pairs[4] = {106, 7, 108, 9}, fields[4] = {20, 1, 0, 1}, lengths[1] = {2}, none[1] = {0};
    static const uint32_t sizes[1] = {40};
    static const uint8_t name[2] = {'o', 'k'};
    uint8_t out[100];

    KEEP(HDF4_SMALL, hdf4_pack_answer, hdf4_pack_number_type(1, 24, 32, 4, b, 0));
    KEEP(HDF4_SMALL, hdf4_pack_answer, hdf4_pack_dimension(12, 10, 106, 7, 3, 1, 11, 5, b, 0));
    KEEP(HDF4_RECORD, hdf4_pack_answer, hdf4_pack_array(l, 0, pairs, 4, out, 100));
    KEEP(HDF4_RECORD, hdf4_pack_answer, hdf4_pack_array(sizes, 1, s, 0, out, 100));
    KEEP(HDF4_SMALL, hdf4_pack_answer, hdf4_pack_array(sizes, 1, pairs, 4, b, 0));
    KEEP(HDF4_RECORD, hdf4_pack_answer, hdf4_pack_array(l, 0, s, 0, b, 0));
    KEEP(0, hdf4_pack_answer, hdf4_pack_group(s, 0, name, 2, name, 2, 21, 22, 3, 23, out, 100));
    KEEP(0, hdf4_pack_answer, hdf4_pack_group(pairs, 4, b, 0, name, 2, 21, 22, 3, 23, out, 100));
    KEEP(0, hdf4_pack_answer, hdf4_pack_group(pairs, 4, name, 2, b, 0, 21, 22, 3, 23, out, 100));
    KEEP(HDF4_SMALL, hdf4_pack_answer, hdf4_pack_group(pairs, 4, name, 2, name, 2, 21, 22, 3, 23, b, 0));
    KEEP(0, hdf4_pack_answer, hdf4_pack_group(s, 0, b, 0, b, 0, 21, 22, 3, 23, out, 100));
    KEEP(HDF4_SMALL, hdf4_pack_answer, hdf4_pack_group(s, 0, b, 0, b, 0, 21, 22, 3, 23, b, 0));
    KEEP(HDF4_RECORD, hdf4_pack_answer, hdf4_pack_vdata(0, 4, 1, s, 0, lengths, 1, name, 2, name, 2, name, 2, 31, 32, 3, 33, out, 100));
    KEEP(HDF4_RECORD, hdf4_pack_answer, hdf4_pack_vdata(0, 4, 1, fields, 4, s, 0, name, 2, name, 2, name, 2, 31, 32, 3, 33, out, 100));
    KEEP(HDF4_RECORD, hdf4_pack_answer, hdf4_pack_vdata(0, 4, 1, fields, 4, lengths, 1, b, 0, name, 2, name, 2, 31, 32, 3, 33, out, 100));
    KEEP(0, hdf4_pack_answer, hdf4_pack_vdata(0, 4, 1, fields, 4, none, 1, b, 0, name, 2, name, 2, 31, 32, 3, 33, out, 100));
    KEEP(0, hdf4_pack_answer, hdf4_pack_vdata(0, 4, 1, fields, 4, lengths, 1, name, 2, b, 0, name, 2, 31, 32, 3, 33, out, 100));
    KEEP(0, hdf4_pack_answer, hdf4_pack_vdata(0, 4, 1, fields, 4, lengths, 1, name, 2, name, 2, b, 0, 31, 32, 3, 33, out, 100));
    KEEP(HDF4_SMALL, hdf4_pack_answer, hdf4_pack_vdata(0, 4, 1, fields, 4, lengths, 1, name, 2, name, 2, name, 2, 31, 32, 3, 33, b, 0));
    KEEP(0, hdf4_pack_answer, hdf4_pack_vdata(0, 4, 0, s, 0, s, 0, b, 0, b, 0, b, 0, 31, 32, 3, 33, out, 100));
    KEEP(HDF4_SMALL, hdf4_pack_answer, hdf4_pack_vdata(0, 4, 0, s, 0, s, 0, b, 0, b, 0, b, 0, 31, 32, 3, 33, b, 0));
}

void call_all(const struct empty *empty, struct answers *answers)
{
    memset(answers, 0, sizeof *answers);
    make_file(whole);
    make_file(file);
    make_small(small);
    /* 1965/6, a Vgroup without members, in place of the data of the Vdata, which then has no records. */
    put_32(file + 245 + 2, 0);
    put_slot(file + 88, 1965, 6, 311, 14);
    put_16(file + 311 + 10, 3);
    read_all(empty->bytes, empty->shorts, empty->longs, empty->numbers, empty->fields, answers);
    edit_all(empty->bytes, answers);
    pack_all(empty->bytes, empty->shorts, empty->longs, answers);
}

void compare_with(const struct empty *empty)
{
    static struct answers expected, answers;
    uint8_t bytes[16], bytes_before[16];
    uint16_t shorts[16] = {0xee};
    uint32_t longs[16] = {0xee};
    uint64_t numbers[16] = {0xee};
    hdf4_field fields[4] = {{0, 0, 0, 0, 0, 0}};
    struct empty other = {bytes, shorts, longs, numbers, fields};

    memset(bytes, 0xee, sizeof bytes);
    memcpy(bytes_before, bytes, sizeof bytes);
    call_all(&other, &expected);
    call_all(empty, &answers);
    need(answers.count == expected.count, "as many answers");
    need(memcmp(answers.numbers, expected.numbers, sizeof expected.numbers) == 0, "the same answers for other empty slices");
    need(memcmp(bytes, bytes_before, sizeof bytes) == 0 && shorts[0] == 0xee, "nothing written to an empty slice");
    need(longs[0] == 0xee && numbers[0] == 0xee, "nothing written to an empty slice of longer numbers");
}
