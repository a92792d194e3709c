/* What include/hdf4.h must have, written by hand: the size of every struct and the place of every field, the value of every constant,
 * and every function. Whoever includes it says before what is to be made of a line, by the macros that are named here; a macro that is
 * not wanted may be left out. */

#ifndef STRUCT
#define STRUCT(name, size)
#endif
#ifndef FIELD
#define FIELD(name, field, type, place)
#endif
#ifndef CONSTANT
#define CONSTANT(name, value)
#endif
#ifndef REFUSAL
#define REFUSAL(name, value)
#endif
#ifndef KIND
#define KIND(name, value)
#endif

STRUCT(hdf4_open_answer, 40)
FIELD(hdf4_open_answer, number, uint64_t, 0)
FIELD(hdf4_open_answer, place, uint64_t, 8)
FIELD(hdf4_open_answer, blocks, uint64_t, 16)
FIELD(hdf4_open_answer, slots, uint64_t, 24)
FIELD(hdf4_open_answer, live, uint64_t, 32)

STRUCT(hdf4_find_answer, 24)
FIELD(hdf4_find_answer, number, uint64_t, 0)
FIELD(hdf4_find_answer, place, uint64_t, 8)
FIELD(hdf4_find_answer, slot, uint64_t, 16)

STRUCT(hdf4_list_answer, 24)
FIELD(hdf4_list_answer, number, uint64_t, 0)
FIELD(hdf4_list_answer, place, uint64_t, 8)
FIELD(hdf4_list_answer, elements, uint64_t, 16)

STRUCT(hdf4_view_answer, 32)
FIELD(hdf4_view_answer, number, uint64_t, 0)
FIELD(hdf4_view_answer, place, uint64_t, 8)
FIELD(hdf4_view_answer, offset, uint64_t, 16)
FIELD(hdf4_view_answer, length, uint64_t, 24)

STRUCT(hdf4_size_answer, 24)
FIELD(hdf4_size_answer, number, uint64_t, 0)
FIELD(hdf4_size_answer, place, uint64_t, 8)
FIELD(hdf4_size_answer, length, uint64_t, 16)

STRUCT(hdf4_copy_answer, 32)
FIELD(hdf4_copy_answer, number, uint64_t, 0)
FIELD(hdf4_copy_answer, place, uint64_t, 8)
FIELD(hdf4_copy_answer, length, uint64_t, 16)
FIELD(hdf4_copy_answer, index, uint64_t, 24)

STRUCT(hdf4_choose_answer, 40)
FIELD(hdf4_choose_answer, number, uint64_t, 0)
FIELD(hdf4_choose_answer, place, uint64_t, 8)
FIELD(hdf4_choose_answer, which, uint64_t, 16)
FIELD(hdf4_choose_answer, offset, uint64_t, 24)
FIELD(hdf4_choose_answer, length, uint64_t, 32)

STRUCT(hdf4_edit_answer, 24)
FIELD(hdf4_edit_answer, number, uint64_t, 0)
FIELD(hdf4_edit_answer, place, uint64_t, 8)
FIELD(hdf4_edit_answer, length, uint64_t, 16)

STRUCT(hdf4_number_type_answer, 48)
FIELD(hdf4_number_type_answer, number, uint64_t, 0)
FIELD(hdf4_number_type_answer, place, uint64_t, 8)
FIELD(hdf4_number_type_answer, version, uint64_t, 16)
FIELD(hdf4_number_type_answer, type, uint64_t, 24)
FIELD(hdf4_number_type_answer, width, uint64_t, 32)
FIELD(hdf4_number_type_answer, number_class, uint64_t, 40)

STRUCT(hdf4_dimension_answer, 80)
FIELD(hdf4_dimension_answer, number, uint64_t, 0)
FIELD(hdf4_dimension_answer, place, uint64_t, 8)
FIELD(hdf4_dimension_answer, x, uint64_t, 16)
FIELD(hdf4_dimension_answer, y, uint64_t, 24)
FIELD(hdf4_dimension_answer, type_tag, uint64_t, 32)
FIELD(hdf4_dimension_answer, type_ref, uint64_t, 40)
FIELD(hdf4_dimension_answer, elements, uint64_t, 48)
FIELD(hdf4_dimension_answer, interlace, uint64_t, 56)
FIELD(hdf4_dimension_answer, compression_tag, uint64_t, 64)
FIELD(hdf4_dimension_answer, compression_ref, uint64_t, 72)

STRUCT(hdf4_array_answer, 24)
FIELD(hdf4_array_answer, number, uint64_t, 0)
FIELD(hdf4_array_answer, place, uint64_t, 8)
FIELD(hdf4_array_answer, rank, uint64_t, 16)

STRUCT(hdf4_group_answer, 88)
FIELD(hdf4_group_answer, number, uint64_t, 0)
FIELD(hdf4_group_answer, place, uint64_t, 8)
FIELD(hdf4_group_answer, members, uint64_t, 16)
FIELD(hdf4_group_answer, name_offset, uint64_t, 24)
FIELD(hdf4_group_answer, name_length, uint64_t, 32)
FIELD(hdf4_group_answer, class_offset, uint64_t, 40)
FIELD(hdf4_group_answer, class_length, uint64_t, 48)
FIELD(hdf4_group_answer, extension_tag, uint64_t, 56)
FIELD(hdf4_group_answer, extension_ref, uint64_t, 64)
FIELD(hdf4_group_answer, version, uint64_t, 72)
FIELD(hdf4_group_answer, more, uint64_t, 80)

STRUCT(hdf4_vdata_answer, 112)
FIELD(hdf4_vdata_answer, number, uint64_t, 0)
FIELD(hdf4_vdata_answer, place, uint64_t, 8)
FIELD(hdf4_vdata_answer, interlace, uint64_t, 16)
FIELD(hdf4_vdata_answer, records, uint64_t, 24)
FIELD(hdf4_vdata_answer, record_size, uint64_t, 32)
FIELD(hdf4_vdata_answer, fields, uint64_t, 40)
FIELD(hdf4_vdata_answer, name_offset, uint64_t, 48)
FIELD(hdf4_vdata_answer, name_length, uint64_t, 56)
FIELD(hdf4_vdata_answer, class_offset, uint64_t, 64)
FIELD(hdf4_vdata_answer, class_length, uint64_t, 72)
FIELD(hdf4_vdata_answer, extension_tag, uint64_t, 80)
FIELD(hdf4_vdata_answer, extension_ref, uint64_t, 88)
FIELD(hdf4_vdata_answer, version, uint64_t, 96)
FIELD(hdf4_vdata_answer, more, uint64_t, 104)

STRUCT(hdf4_field, 16)
FIELD(hdf4_field, type, uint16_t, 0)
FIELD(hdf4_field, size, uint16_t, 2)
FIELD(hdf4_field, offset, uint16_t, 4)
FIELD(hdf4_field, order, uint16_t, 6)
FIELD(hdf4_field, name_offset, uint32_t, 8)
FIELD(hdf4_field, name_length, uint32_t, 12)

STRUCT(hdf4_value_answer, 32)
FIELD(hdf4_value_answer, number, uint64_t, 0)
FIELD(hdf4_value_answer, place, uint64_t, 8)
FIELD(hdf4_value_answer, kind, uint64_t, 16)
FIELD(hdf4_value_answer, bits, uint64_t, 24)

STRUCT(hdf4_column_answer, 32)
FIELD(hdf4_column_answer, number, uint64_t, 0)
FIELD(hdf4_column_answer, place, uint64_t, 8)
FIELD(hdf4_column_answer, kind, uint64_t, 16)
FIELD(hdf4_column_answer, records, uint64_t, 24)

STRUCT(hdf4_group_list_answer, 24)
FIELD(hdf4_group_list_answer, number, uint64_t, 0)
FIELD(hdf4_group_list_answer, place, uint64_t, 8)
FIELD(hdf4_group_list_answer, pairs, uint64_t, 16)

STRUCT(hdf4_pack_answer, 24)
FIELD(hdf4_pack_answer, number, uint64_t, 0)
FIELD(hdf4_pack_answer, place, uint64_t, 8)
FIELD(hdf4_pack_answer, length, uint64_t, 16)

CONSTANT(HDF4_VERSION_MAJOR, 0)
CONSTANT(HDF4_VERSION_MINOR, 3)
CONSTANT(HDF4_VERSION_PATCH, 1)
CONSTANT(HDF4_MOST_BYTES, 2147483647)
CONSTANT(HDF4_MOST_ELEMENTS, 4096)
CONSTANT(HDF4_EDIT_ROOM, 234)
CONSTANT(HDF4_MOST_FIELDS, 256)
CONSTANT(HDF4_MOST_PAIRS, 4096)
CONSTANT(HDF4_LITTLE_ENDIAN, 16384)

REFUSAL(TOO_LONG, 1)
REFUSAL(NOT_HDF, 2)
REFUSAL(DIR_CUT, 3)
REFUSAL(DIR_LOOP, 4)
REFUSAL(DIR_OVER, 5)
REFUSAL(DIR_BIG, 6)
REFUSAL(BAD_TAG, 7)
REFUSAL(OUTSIDE, 8)
REFUSAL(ON_DIRECTORY, 9)
REFUSAL(TWICE, 10)
REFUSAL(ABSENT, 11)
REFUSAL(STORAGE, 12)
REFUSAL(CHAIN, 13)
REFUSAL(SMALL, 14)
REFUSAL(RECORD, 15)
REFUSAL(TYPE, 16)
REFUSAL(NO_VALUE, 17)
REFUSAL(PRESENT, 18)
REFUSAL(NO_ROOM, 19)
REFUSAL(NO_EDIT, 20)
REFUSAL(BAD_TRAILER, 21)
REFUSAL(DEEP, 22)
REFUSAL(NO_TABLE, 23)
REFUSAL(SHORT_TABLE, 24)
REFUSAL(NO_BLOCK, 25)
REFUSAL(SHORT_BLOCK, 26)
REFUSAL(TABLE_LOOP, 27)
REFUSAL(NOT_STORED, 29)
REFUSAL(OTHER_DESK, 30)

KIND(SIGNED, 1)
KIND(UNSIGNED, 2)
KIND(FLOAT32, 3)
KIND(FLOAT64, 4)

#undef STRUCT
#undef FIELD
#undef CONSTANT
#undef REFUSAL
#undef KIND
