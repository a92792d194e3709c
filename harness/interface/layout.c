/* Holds the header against what it must have. It only has to compile, as C and as C++: a wrong number is an array of -1 entries, and a
 * wrong function is declared here for a second time, with other types. */
#include <stddef.h>

#include "hdf4.h"

#define IS(what, one, other) typedef char what[(one) == (other) ? 1 : -1];

#define STRUCT(name, size) IS(size_of_##name, sizeof(name), size)
#define FIELD(name, field, type, place)                                    \
    IS(place_of_##field##_in_##name, offsetof(name, field), place)         \
    IS(size_of_##field##_in_##name, sizeof(((name *)0)->field), sizeof(type))
#define CONSTANT(name, value) IS(value_of_##name, name, value)
#define REFUSAL(name, value) IS(number_of_##name, HDF4_##name, value) IS(enum_of_##name, (enum hdf4_refusal)value, HDF4_##name)
#define KIND(name, value) IS(number_of_##name, HDF4_##name, value) IS(enum_of_##name, (enum hdf4_kind)value, HDF4_##name)
#include "expected.h"

#ifdef __cplusplus
extern "C" {
#endif

hdf4_open_answer hdf4_open(const uint8_t *image, size_t n);
hdf4_find_answer hdf4_find(const uint8_t *image, size_t n, uint16_t tag, uint16_t ref);
hdf4_list_answer hdf4_list(const uint8_t *image, size_t n, uint32_t *table, size_t room);
hdf4_view_answer hdf4_view(const uint8_t *image, size_t n, uint16_t tag, uint16_t ref);
hdf4_size_answer hdf4_size(const uint8_t *image, size_t n, uint16_t tag, uint16_t ref);
hdf4_copy_answer hdf4_copy(const uint8_t *image, size_t n, uint16_t tag, uint16_t ref, uint8_t *out, size_t room);
hdf4_choose_answer hdf4_choose(const uint8_t *current, size_t n, const uint8_t *fallback, size_t m, uint16_t tag, uint16_t ref);
hdf4_edit_answer hdf4_add(uint8_t *buffer, size_t capacity, uint64_t n, uint32_t desk, uint16_t tag, uint16_t ref,
                          const uint8_t *data, size_t size);
hdf4_edit_answer hdf4_replace(uint8_t *buffer, size_t capacity, uint64_t n, uint32_t desk, uint16_t tag, uint16_t ref,
                              const uint8_t *data, size_t size);
hdf4_edit_answer hdf4_remove(uint8_t *buffer, size_t capacity, uint64_t n, uint32_t desk, uint16_t tag, uint16_t ref);
hdf4_edit_answer hdf4_undo(uint8_t *buffer, size_t capacity, uint64_t n, uint32_t desk);
hdf4_number_type_answer hdf4_read_number_type(const uint8_t *image, size_t n, uint16_t ref);
hdf4_pack_answer hdf4_pack_number_type(uint8_t version, uint8_t type, uint8_t width, uint8_t number_class, uint8_t *out, size_t room);
hdf4_dimension_answer hdf4_read_dimension(const uint8_t *image, size_t n, uint16_t tag, uint16_t ref);
hdf4_pack_answer hdf4_pack_dimension(uint32_t x, uint32_t y, uint16_t type_tag, uint16_t type_ref, uint16_t elements,
                                     uint16_t interlace, uint16_t compression_tag, uint16_t compression_ref, uint8_t *out,
                                     size_t room);
hdf4_array_answer hdf4_read_array(const uint8_t *image, size_t n, uint16_t ref, uint32_t *sizes, size_t sizes_room, uint16_t *pairs,
                                  size_t pairs_room);
hdf4_pack_answer hdf4_pack_array(const uint32_t *sizes, size_t sizes_count, const uint16_t *pairs, size_t pairs_count, uint8_t *out,
                                 size_t room);
hdf4_group_answer hdf4_read_group(const uint8_t *image, size_t n, uint16_t ref, uint16_t *members, size_t room);
hdf4_pack_answer hdf4_pack_group(const uint16_t *members, size_t members_count, const uint8_t *name, size_t name_length,
                                 const uint8_t *class_name, size_t class_length, uint16_t extension_tag, uint16_t extension_ref,
                                 uint16_t version, uint16_t more, uint8_t *out, size_t room);
hdf4_vdata_answer hdf4_read_vdata(const uint8_t *image, size_t n, uint16_t ref, uint16_t *fields, size_t fields_room, uint32_t *names,
                                  size_t names_room);
hdf4_vdata_answer hdf4_read_fields(const uint8_t *image, size_t n, uint16_t ref, hdf4_field *table, size_t room);
hdf4_pack_answer hdf4_pack_vdata(uint16_t interlace, uint32_t records, uint16_t record_size, const uint16_t *fields,
                                 size_t fields_count, const uint16_t *name_lengths, size_t name_lengths_count, const uint8_t *names,
                                 size_t names_length, const uint8_t *name, size_t name_length, const uint8_t *class_name,
                                 size_t class_length, uint16_t extension_tag, uint16_t extension_ref, uint16_t version, uint16_t more,
                                 uint8_t *out, size_t room);
hdf4_value_answer hdf4_read_value(const uint8_t *image, size_t n, uint16_t ref, uint64_t record, uint64_t field, uint64_t component);
hdf4_column_answer hdf4_read_column(const uint8_t *image, size_t n, uint16_t ref, uint64_t field, uint64_t component, uint64_t *out,
                                    size_t room);
hdf4_group_list_answer hdf4_list_group(const uint8_t *image, size_t n, uint16_t ref, uint16_t *list, size_t room);

#ifdef __cplusplus
}
#endif
