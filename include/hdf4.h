/* The C interface of the library. Link libhdf4.a or libhdf4.so.
 *
 * Every function returns a struct of numbers: number and place first (0 and 0 where the call is granted), then its values in order,
 * zeros where it is refused, but for the index of hdf4_copy. A slice passes as a pointer and a length, in entries of its type. A null
 * pointer is allowed exactly where the length is 0. Nothing is written where a call is refused.
 *
 * The numbers of refusals are named below. A place counts bytes from the start of the image.
 *
 * No function allocates memory or keeps anything between calls. On x86-64 none keeps more than 1,024 bytes of stack, but for
 * hdf4_list_group, which says what it keeps.
 *
 * Written by tools/interface from crates/hdf4/src, crates/answer/src and VERSION.
 */
#ifndef HDF4_H
#define HDF4_H

#include <stddef.h>
#include <stdint.h>

#ifdef __cplusplus
extern "C" {
#endif

/* The version of the library that this header is of. */
#define HDF4_VERSION "0.3.1"
#define HDF4_VERSION_MAJOR 0
#define HDF4_VERSION_MINOR 3
#define HDF4_VERSION_PATCH 1

/* The most bytes that an image has. */
#define HDF4_MOST_BYTES 2147483647

/* The most elements that an image has. */
#define HDF4_MOST_ELEMENTS 4096

/* The most bytes by which an edit makes an image longer, besides its data: a block of descriptors and a trailer. */
#define HDF4_EDIT_ROOM 234

/* The most fields that a Vdata has. */
#define HDF4_MOST_FIELDS 256

/* The most pairs that the listing of a group has. */
#define HDF4_MOST_PAIRS 4096

/* Added to the code of a field's type where numbers stand low byte first. */
#define HDF4_LITTLE_ENDIAN 16384

/* Why a call is refused. */
enum hdf4_refusal {
    HDF4_TOO_LONG = 1,     /* the image is longer than its buffer or than HDF4_MOST_BYTES, or an edit would make it so */
    HDF4_NOT_HDF = 2,      /* the image is shorter than 4 bytes, or has other first bytes */
    HDF4_DIR_CUT = 3,      /* a block is not wholly inside the image */
    HDF4_DIR_LOOP = 4,     /* the next block is one already walked */
    HDF4_DIR_OVER = 5,     /* a block shares a byte with the header or an earlier block */
    HDF4_DIR_BIG = 6,      /* there is a 257th block or a 4,097th slot */
    HDF4_BAD_TAG = 7,      /* a tag is one that no live slot may have, or that no edit takes */
    HDF4_OUTSIDE = 8,      /* an element ends past the image */
    HDF4_ON_DIRECTORY = 9, /* an element touches the header or a block */
    HDF4_TWICE = 10,       /* two live slots have the same base tag and reference */
    HDF4_ABSENT = 11,      /* no live slot has that base tag and reference */
    HDF4_STORAGE = 12,     /* the element is extended, and not of a kind that the call reads */
    HDF4_CHAIN = 13,       /* the record of the element's linked blocks breaks its layout */
    HDF4_SMALL = 14,       /* the lent output is too short */
    HDF4_RECORD = 15,      /* a record breaks its layout */
    HDF4_TYPE = 16,        /* a number type is not known, also less 16384 */
    HDF4_NO_VALUE = 17,    /* the Vdata has no such record, field or component */
    HDF4_PRESENT = 18,     /* an element with that base tag and reference is there already */
    HDF4_NO_ROOM = 19,     /* the buffer is shorter than the new image */
    HDF4_NO_EDIT = 20,     /* the image carries no trailer, so there is nothing to undo */
    HDF4_BAD_TRAILER = 21, /* the trailer breaks a rule; the place is the trailer's */
    HDF4_DEEP = 22,        /* groups are nested past 16; the place is the slot of the 16th */
    HDF4_NO_TABLE = 23,    /* a table of the element's linked blocks is absent, not stored or extended, or its reference is 0; the index is the table's */
    HDF4_SHORT_TABLE = 24, /* a table of the element's linked blocks has too few bytes for its entries; the index is the table's */
    HDF4_NO_BLOCK = 25,    /* a linked block is absent, not stored or extended, or its reference is 0 by a record of 22 bytes; the index is the block's, through the whole element */
    HDF4_SHORT_BLOCK = 26, /* a linked block has fewer bytes than are taken from it; the index is the block's, through the whole element */
    HDF4_TABLE_LOOP = 27,  /* a table of the element's linked blocks is one already walked, or a 257th; the index is the table's */
    HDF4_NOT_STORED = 29,  /* the element is named and not stored yet: offset and length of its slot are 4294967295 */
    HDF4_OTHER_DESK = 30   /* the trailer of the newest edit is another desk's; the place is the trailer's */
};

/* The kinds of values. */
enum hdf4_kind {
    HDF4_SIGNED = 1,   /* a signed number */
    HDF4_UNSIGNED = 2, /* an unsigned number, or a character */
    HDF4_FLOAT32 = 3,  /* a float of 32 bits */
    HDF4_FLOAT64 = 4   /* a float of 64 bits */
};

/* The name of a refusal, as TOO_LONG; GRANTED for 0, and UNKNOWN for a number that this header does not have. */
static inline const char *hdf4_refusal_name(uint64_t number)
{
    switch (number) {
    case 0: return "GRANTED";
    case HDF4_TOO_LONG: return "TOO_LONG";
    case HDF4_NOT_HDF: return "NOT_HDF";
    case HDF4_DIR_CUT: return "DIR_CUT";
    case HDF4_DIR_LOOP: return "DIR_LOOP";
    case HDF4_DIR_OVER: return "DIR_OVER";
    case HDF4_DIR_BIG: return "DIR_BIG";
    case HDF4_BAD_TAG: return "BAD_TAG";
    case HDF4_OUTSIDE: return "OUTSIDE";
    case HDF4_ON_DIRECTORY: return "ON_DIRECTORY";
    case HDF4_TWICE: return "TWICE";
    case HDF4_ABSENT: return "ABSENT";
    case HDF4_STORAGE: return "STORAGE";
    case HDF4_CHAIN: return "CHAIN";
    case HDF4_SMALL: return "SMALL";
    case HDF4_RECORD: return "RECORD";
    case HDF4_TYPE: return "TYPE";
    case HDF4_NO_VALUE: return "NO_VALUE";
    case HDF4_PRESENT: return "PRESENT";
    case HDF4_NO_ROOM: return "NO_ROOM";
    case HDF4_NO_EDIT: return "NO_EDIT";
    case HDF4_BAD_TRAILER: return "BAD_TRAILER";
    case HDF4_DEEP: return "DEEP";
    case HDF4_NO_TABLE: return "NO_TABLE";
    case HDF4_SHORT_TABLE: return "SHORT_TABLE";
    case HDF4_NO_BLOCK: return "NO_BLOCK";
    case HDF4_SHORT_BLOCK: return "SHORT_BLOCK";
    case HDF4_TABLE_LOOP: return "TABLE_LOOP";
    case HDF4_NOT_STORED: return "NOT_STORED";
    case HDF4_OTHER_DESK: return "OTHER_DESK";
    default: return "UNKNOWN";
    }
}

/* What a refusal says, in words for a person. */
static inline const char *hdf4_refusal_text(uint64_t number)
{
    switch (number) {
    case 0: return "the call was granted";
    case HDF4_TOO_LONG: return "the file is too long";
    case HDF4_NOT_HDF: return "this is no HDF4 file";
    case HDF4_DIR_CUT: return "a block of descriptors is not wholly inside the file";
    case HDF4_DIR_LOOP: return "the chain of blocks comes back to one already walked";
    case HDF4_DIR_OVER: return "a block of descriptors overlaps the header or an earlier block";
    case HDF4_DIR_BIG: return "there are more than 256 blocks or 4,096 slots";
    case HDF4_BAD_TAG: return "a tag is not allowed";
    case HDF4_OUTSIDE: return "an element ends past the end of the file";
    case HDF4_ON_DIRECTORY: return "an element touches the header or a block of descriptors";
    case HDF4_TWICE: return "two elements have the same tag and reference";
    case HDF4_ABSENT: return "there is no element with that tag and reference";
    case HDF4_STORAGE: return "the element is stored in a way that is not read here";
    case HDF4_CHAIN: return "the record of the element's linked blocks breaks its layout";
    case HDF4_SMALL: return "the output is too short";
    case HDF4_RECORD: return "a record breaks its layout";
    case HDF4_TYPE: return "a number type is not known";
    case HDF4_NO_VALUE: return "there is no such record, field or component";
    case HDF4_PRESENT: return "there is already an element with that tag and reference";
    case HDF4_NO_ROOM: return "the buffer has no room for the edit";
    case HDF4_NO_EDIT: return "there is no edit to undo";
    case HDF4_BAD_TRAILER: return "the trailer of the last edit is damaged";
    case HDF4_DEEP: return "groups are nested more than 16 deep";
    case HDF4_NO_TABLE: return "a table of the element's linked blocks is not there";
    case HDF4_SHORT_TABLE: return "a table of the element's linked blocks is too short";
    case HDF4_NO_BLOCK: return "a linked block of the element is not there";
    case HDF4_SHORT_BLOCK: return "a linked block of the element is too short";
    case HDF4_TABLE_LOOP: return "the tables of the element's linked blocks repeat or run past 256";
    case HDF4_NOT_STORED: return "the element is named in the directory and not stored yet";
    case HDF4_OTHER_DESK: return "the newest edit is another desk's";
    default: return "a rule that this version does not know";
    }
}

/* What the directory of an image has. */
typedef struct {
    uint64_t number;
    uint64_t place;
    uint64_t blocks; /* blocks of descriptors */
    uint64_t slots;  /* slots in these blocks, the free ones included */
    uint64_t live;   /* slots that are not free: the elements */
} hdf4_open_answer;

/* Where an element's descriptor stands. */
typedef struct {
    uint64_t number;
    uint64_t place;
    uint64_t slot;   /* the place of the descriptor in the image */
} hdf4_find_answer;

/* What was listed. */
typedef struct {
    uint64_t number;
    uint64_t place;
    uint64_t elements; /* live slots that were written to the table */
} hdf4_list_answer;

/* An element's own part of the image. */
typedef struct {
    uint64_t number;
    uint64_t place;
    uint64_t offset; /* where the part starts in the image, 0 where the element has no bytes */
    uint64_t length; /* bytes of the element */
} hdf4_view_answer;

/* How many bytes a copy of an element has. */
typedef struct {
    uint64_t number;
    uint64_t place;
    uint64_t length; /* bytes of the element */
} hdf4_size_answer;

/* What was copied. */
typedef struct {
    uint64_t number;
    uint64_t place;
    uint64_t length; /* bytes of the element */
    uint64_t index;  /* which table or block of the element's linked blocks is broken, counted from 0, where the number is 23 to 27; else 0 */
} hdf4_copy_answer;

/* An element's own part of one of two images. */
typedef struct {
    uint64_t number;
    uint64_t place;
    uint64_t which;  /* 1 for the current image, 2 for the fallback */
    uint64_t offset; /* where the part starts in that image, 0 where the element has no bytes */
    uint64_t length; /* bytes of the element */
} hdf4_choose_answer;

/* What an edit or an undo left. */
typedef struct {
    uint64_t number;
    uint64_t place;
    uint64_t length; /* bytes of the new image */
} hdf4_edit_answer;

/* A number type. */
typedef struct {
    uint64_t number;
    uint64_t place;
    uint64_t version;      /* the version of the record */
    uint64_t type;         /* the type's code, as 24 for a signed number of 32 bits */
    uint64_t width;        /* bits of a number */
    uint64_t number_class; /* how the number is written, as 1 for high byte first */
} hdf4_number_type_answer;

/* A dimension. */
typedef struct {
    uint64_t number;
    uint64_t place;
    uint64_t x;               /* columns */
    uint64_t y;               /* rows */
    uint64_t type_tag;        /* the tag of the number type's record */
    uint64_t type_ref;        /* the reference of the number type's record */
    uint64_t elements;        /* numbers in each point */
    uint64_t interlace;       /* 0 by point, 1 by row, 2 by plane */
    uint64_t compression_tag; /* the tag of the record of how the image is compressed */
    uint64_t compression_ref; /* the reference of that record */
} hdf4_dimension_answer;

/* An array; its lists are in the tables. */
typedef struct {
    uint64_t number;
    uint64_t place;
    uint64_t rank;   /* how many sizes; there is one pair more */
} hdf4_array_answer;

/* What was packed. */
typedef struct {
    uint64_t number;
    uint64_t place;
    uint64_t length; /* bytes of the record */
} hdf4_pack_answer;

/* A Vgroup; its members are in the table. */
typedef struct {
    uint64_t number;
    uint64_t place;
    uint64_t members;       /* how many members */
    uint64_t name_offset;   /* where the name stands in the image */
    uint64_t name_length;   /* bytes of the name */
    uint64_t class_offset;  /* where the class stands in the image */
    uint64_t class_length;  /* bytes of the class */
    uint64_t extension_tag; /* the extension's tag */
    uint64_t extension_ref; /* the extension's reference */
    uint64_t version;       /* the version: 3 */
    uint64_t more;          /* the field named more */
} hdf4_group_answer;

/* The head of a Vdata; its fields are in the tables. */
typedef struct {
    uint64_t number;
    uint64_t place;
    uint64_t interlace;     /* 0 where the values stand by record, 1 where they stand by field */
    uint64_t records;       /* how many records */
    uint64_t record_size;   /* bytes of a record */
    uint64_t fields;        /* how many fields */
    uint64_t name_offset;   /* where the name stands in the image */
    uint64_t name_length;   /* bytes of the name */
    uint64_t class_offset;  /* where the class stands in the image */
    uint64_t class_length;  /* bytes of the class */
    uint64_t extension_tag; /* the extension's tag */
    uint64_t extension_ref; /* the extension's reference */
    uint64_t version;       /* the version: 3 */
    uint64_t more;          /* the field named more */
} hdf4_vdata_answer;

/* A value of a Vdata. */
typedef struct {
    uint64_t number;
    uint64_t place;
    uint64_t kind;   /* HDF4_SIGNED, HDF4_UNSIGNED, HDF4_FLOAT32 or HDF4_FLOAT64 */
    uint64_t bits;   /* of a signed number its two's complement in 64 bits, of a float its own bits */
} hdf4_value_answer;

/* What was read of a column of a Vdata. */
typedef struct {
    uint64_t number;
    uint64_t place;
    uint64_t kind;    /* HDF4_SIGNED, HDF4_UNSIGNED, HDF4_FLOAT32 or HDF4_FLOAT64: that of every value */
    uint64_t records; /* how many records: values that were written */
} hdf4_column_answer;

/* What was listed of a Vgroup. */
typedef struct {
    uint64_t number;
    uint64_t place;
    uint64_t pairs;  /* pairs that were written to the table */
} hdf4_group_list_answer;

/* A field of a Vdata. */
typedef struct {
    uint16_t type;        /* the type's code, as it is stored */
    uint16_t size;        /* bytes of the field in a record */
    uint16_t offset;      /* bytes of the fields before it */
    uint16_t order;       /* numbers of the field in a record */
    uint32_t name_offset; /* where the field's name stands in the image */
    uint32_t name_length; /* bytes of the name */
} hdf4_field;

/* Opens an image: counts its directory, or finds the first rule that it breaks. */
hdf4_open_answer hdf4_open(const uint8_t *image, size_t n);

/* Finds the live slot that has the base tag of a tag and a reference. */
hdf4_find_answer hdf4_find(const uint8_t *image, size_t n, uint16_t tag, uint16_t ref);

/* Lists the live slots in chain order to the front of a lent table: tag, reference, offset and length of each, as they stand in its
 * slot. Offset and length of an element that is named and not stored yet are 4294967295; every call that reads it answers
 * HDF4_NOT_STORED. A table of 4 times HDF4_MOST_ELEMENTS entries is always enough. */
hdf4_list_answer hdf4_list(const uint8_t *image, size_t n, uint32_t *table, size_t room);

/* Finds an element's own part of the image. The element is plain: an extended one is refused at its slot. */
hdf4_view_answer hdf4_view(const uint8_t *image, size_t n, uint16_t tag, uint16_t ref);

/* Tells how many bytes hdf4_copy would write, and so how long its output must be. The element is plain or of linked blocks; their record
 * is judged, and their tables and blocks are not: hdf4_copy may still refuse these. */
hdf4_size_answer hdf4_size(const uint8_t *image, size_t n, uint16_t tag, uint16_t ref);

/* Copies an element's bytes to the front of a lent output; the rest of it stays as it was. The element is plain or of linked blocks, of
 * which one that was never written reads as zeros. Where a table or a block is broken the refusal says which: its place is the element's
 * slot, and its index that of the first one that a walk meets. The output may not lie in the image. */
hdf4_copy_answer hdf4_copy(const uint8_t *image, size_t n, uint16_t tag, uint16_t ref, uint8_t *out, size_t room);

/* Finds an element's own part of the current image or, where that has no such element, of the fallback. Both must open, and the element
 * is plain: one that is extended in the current image is refused, whatever the fallback has. A refusal by the opening of an image, or by
 * the element's storage, names a place in that image. */
hdf4_choose_answer hdf4_choose(const uint8_t *current, size_t n, const uint8_t *fallback, size_t m, uint16_t tag, uint16_t ref);

/* Edits and undo.
 *
 * The image is the first `n` bytes of a lent buffer; an `n` over the buffer's length is refused. The new image stands at the front of
 * the buffer, and the bytes behind its end stay as they were. An edit changes one descriptor, or links one new block, and appends the
 * data and a trailer that says how to undo it and which desk made it: the image grows by the data and at most HDF4_EDIT_ROOM bytes more.
 * The data may not lie in the buffer. The tag is not 0, 1 or 107, and not of the extended form, 16384 to 32767. The desk is any number:
 * who edits a file alone names 0.
 */

/* Adds an element with its data, in the first free slot or in a new block. */
hdf4_edit_answer hdf4_add(uint8_t *buffer, size_t capacity, uint64_t n, uint32_t desk, uint16_t tag, uint16_t ref, const uint8_t *data,
                          size_t size);

/* Gives an element other data. */
hdf4_edit_answer hdf4_replace(uint8_t *buffer, size_t capacity, uint64_t n, uint32_t desk, uint16_t tag, uint16_t ref, const uint8_t *data,
                              size_t size);

/* Removes an element. */
hdf4_edit_answer hdf4_remove(uint8_t *buffer, size_t capacity, uint64_t n, uint32_t desk, uint16_t tag, uint16_t ref);

/* Undoes the newest edit that the image carries, for the desk that made it: the image is as before the edit, byte for byte. Another desk
 * is refused with HDF4_OTHER_DESK, at the place of the edit's trailer. The trailer ends the image. If it has 36 bytes, the four before
 * its last four are the desk, most significant byte first; if it has 32, it is from before trailers named a desk, and desk 0's. */
hdf4_edit_answer hdf4_undo(uint8_t *buffer, size_t capacity, uint64_t n, uint32_t desk);

/* Records.
 *
 * A record is an element in plain storage: an extended one is refused at its slot, as is one that breaks its layout. Lists are written
 * to the fronts of lent tables, a pair as its tag and its reference, one after the other; what is behind them stays as it was. A table
 * that is too short is refused with HDF4_SMALL.
 *
 * Packing writes a record's bytes to the front of a lent output. What was read gives back the record's own bytes, up to its last field.
 */

/* Reads a number type, tag 106: four bytes of any values. */
hdf4_number_type_answer hdf4_read_number_type(const uint8_t *image, size_t n, uint16_t ref);

/* Packs a number type: 4 bytes. */
hdf4_pack_answer hdf4_pack_number_type(uint8_t version, uint8_t type, uint8_t width, uint8_t number_class, uint8_t *out, size_t room);

/* Reads a dimension, of tag 300, 307 or 308. The tag may be any, and is looked up by its base tag. */
hdf4_dimension_answer hdf4_read_dimension(const uint8_t *image, size_t n, uint16_t tag, uint16_t ref);

/* Packs a dimension: 20 bytes. */
hdf4_pack_answer hdf4_pack_dimension(uint32_t x, uint32_t y, uint16_t type_tag, uint16_t type_ref, uint16_t elements, uint16_t interlace,
                                     uint16_t compression_tag, uint16_t compression_ref, uint8_t *out, size_t room);

/* Reads an array, tag 701: its sizes, and one pair more, the data's type first. */
hdf4_array_answer hdf4_read_array(const uint8_t *image, size_t n, uint16_t ref, uint32_t *sizes, size_t sizes_room, uint16_t *pairs,
                                  size_t pairs_room);

/* Packs an array: 6 bytes, and 8 for each size. */
hdf4_pack_answer hdf4_pack_array(const uint32_t *sizes, size_t sizes_count, const uint16_t *pairs, size_t pairs_count, uint8_t *out,
                                 size_t room);

/* Reads a Vgroup, tag 1965: tag and reference of each member. */
hdf4_group_answer hdf4_read_group(const uint8_t *image, size_t n, uint16_t ref, uint16_t *members, size_t room);

/* Packs a Vgroup. */
hdf4_pack_answer hdf4_pack_group(const uint16_t *members, size_t members_count, const uint8_t *name, size_t name_length,
                                 const uint8_t *class_name, size_t class_length, uint16_t extension_tag, uint16_t extension_ref,
                                 uint16_t version, uint16_t more, uint8_t *out, size_t room);

/* Reads the head of a Vdata, tag 1962: type, size, offset and order of each field, and place in the image and length of each field's
 * name. A type is given as it is stored, with HDF4_LITTLE_ENDIAN added where numbers stand low byte first. Tables of 4 times and 2 times
 * HDF4_MOST_FIELDS entries are always enough. */
hdf4_vdata_answer hdf4_read_vdata(const uint8_t *image, size_t n, uint16_t ref, uint16_t *fields, size_t fields_room, uint32_t *names,
                                  size_t names_room);

/* Packs the head of a Vdata. The fields are given by four numbers each, as they are read; by the length of each field's name; and by
 * these names one after the other. */
hdf4_pack_answer hdf4_pack_vdata(uint16_t interlace, uint32_t records, uint16_t record_size, const uint16_t *fields, size_t fields_count,
                                 const uint16_t *name_lengths, size_t name_lengths_count, const uint8_t *names, size_t names_length,
                                 const uint8_t *name, size_t name_length, const uint8_t *class_name, size_t class_length,
                                 uint16_t extension_tag, uint16_t extension_ref, uint16_t version, uint16_t more, uint8_t *out,
                                 size_t room);

/* Reads one value of a Vdata, its head of tag 1962 and its data of tag 1963. All indices count from 0. Kind and bits are the number's,
 * whichever of its bytes stands first in the image. */
hdf4_value_answer hdf4_read_value(const uint8_t *image, size_t n, uint16_t ref, uint64_t record, uint64_t field, uint64_t component);

/* Reads one component of one field in every record of a Vdata, in order: the bits of each value, as hdf4_read_value gives them. There
 * must be room for a value of every record. A Vdata without records has a column without values, and needs no data of tag 1963. */
hdf4_column_answer hdf4_read_column(const uint8_t *image, size_t n, uint16_t ref, uint64_t field, uint64_t component, uint64_t *out,
                                    size_t room);

/* Lists the members of a Vgroup in order, each member of tag 1965 followed by its own members: tag and reference of each. There are at
 * most HDF4_MOST_PAIRS pairs, and at most 16 groups nested, the named one included. It keeps 576 bytes of stack, or 264 and 336 for each
 * group nested where that is more: 5,632 at the most. */
hdf4_group_list_answer hdf4_list_group(const uint8_t *image, size_t n, uint16_t ref, uint16_t *list, size_t room);

/* Reads the head of a Vdata as hdf4_read_vdata does, to one table with an entry a field. It is refused with HDF4_SMALL where there are
 * more fields than entries. */
hdf4_vdata_answer hdf4_read_fields(const uint8_t *image, size_t n, uint16_t ref, hdf4_field *table, size_t room);

#ifdef __cplusplus
}
#endif

#endif
