//! The C interface of the proved HDF4 library, declared for Rust, and a safe function over slices for each call.
//!
//! The crate `hdf4` is the one to use in a program: its calls give a `Result`.
//!
//! Every function returns a struct of numbers: number and place first (0 and 0 where the call is granted), then its values in
//! order, zeros where it is refused, but for the index of `hdf4_copy`. A slice passes as a pointer and a length, in entries of
//! its type. A null pointer is allowed exactly where the length is 0. Nothing is written where a call is refused.
//!
//! The numbers of refusals are named below. A place counts bytes from the start of the image.
//!
//! No function allocates memory or keeps anything between calls. On x86-64 none keeps more than 1,024 bytes of stack, but for
//! `hdf4_list_group`, which says what it keeps.
//!
//! # Edits and undo
//!
//! The image is the first `n` bytes of a lent buffer; an `n` over the buffer's length is refused. The new image stands at the
//! front of the buffer, and the bytes behind its end stay as they were. An edit changes one descriptor, or links one new block,
//! and appends the data and a trailer that says how to undo it and which desk made it: the image grows by the data and at most
//! [`EDIT_ROOM`] bytes more. The data may not lie in the buffer. The tag is not 0, 1 or 107, and not of the extended form, 16384
//! to 32767. The desk is any number: who edits a file alone names 0.
//!
//! # Records
//!
//! A record is an element in plain storage: an extended one is refused at its slot, as is one that breaks its layout. Lists are
//! written to the fronts of lent tables, a pair as its tag and its reference, one after the other; what is behind them stays as
//! it was. A table that is too short is refused with [`SMALL`].
//!
//! Packing writes a record's bytes to the front of a lent output. What was read gives back the record's own bytes, up to its last
//! field.
//!
//! Written by tools/interface from crates/hdf4/src, crates/answer/src and VERSION.

#![deny(missing_docs)]
#![allow(clippy::too_many_arguments)]

use std::fmt::Debug;

/// The version of the library.
pub const VERSION: &str = "0.3.1";

/// The most bytes that an image has.
pub const MOST_BYTES: usize = 2_147_483_647;

/// The most elements that an image has.
pub const MOST_ELEMENTS: usize = 4096;

/// The most bytes by which an edit makes an image longer, besides its data: a block of descriptors and a trailer.
pub const EDIT_ROOM: usize = 234;

/// The most fields that a Vdata has.
pub const MOST_FIELDS: usize = 256;

/// The most pairs that the listing of a group has.
pub const MOST_PAIRS: usize = 4096;

/// Added to the code of a field's type where numbers stand low byte first.
pub const LITTLE_ENDIAN: usize = 16384;

/// A signed number.
pub const SIGNED: u64 = 1;

/// An unsigned number, or a character.
pub const UNSIGNED: u64 = 2;

/// A float of 32 bits.
pub const FLOAT32: u64 = 3;

/// A float of 64 bits.
pub const FLOAT64: u64 = 4;

/// The image is longer than its buffer or than [`MOST_BYTES`], or an edit would make it so.
pub const TOO_LONG: u64 = 1;

/// The image is shorter than 4 bytes, or has other first bytes.
pub const NOT_HDF: u64 = 2;

/// A block is not wholly inside the image.
pub const DIR_CUT: u64 = 3;

/// The next block is one already walked.
pub const DIR_LOOP: u64 = 4;

/// A block shares a byte with the header or an earlier block.
pub const DIR_OVER: u64 = 5;

/// There is a 257th block or a 4,097th slot.
pub const DIR_BIG: u64 = 6;

/// A tag is one that no live slot may have, or that no edit takes.
pub const BAD_TAG: u64 = 7;

/// An element ends past the image.
pub const OUTSIDE: u64 = 8;

/// An element touches the header or a block.
pub const ON_DIRECTORY: u64 = 9;

/// Two live slots have the same base tag and reference.
pub const TWICE: u64 = 10;

/// No live slot has that base tag and reference.
pub const ABSENT: u64 = 11;

/// The element is extended, and not of a kind that the call reads.
pub const STORAGE: u64 = 12;

/// The record of the element's linked blocks breaks its layout.
pub const CHAIN: u64 = 13;

/// The lent output is too short.
pub const SMALL: u64 = 14;

/// A record breaks its layout.
pub const RECORD: u64 = 15;

/// A number type is not known, also less 16384.
pub const TYPE: u64 = 16;

/// The Vdata has no such record, field or component.
pub const NO_VALUE: u64 = 17;

/// An element with that base tag and reference is there already.
pub const PRESENT: u64 = 18;

/// The buffer is shorter than the new image.
pub const NO_ROOM: u64 = 19;

/// The image carries no trailer, so there is nothing to undo.
pub const NO_EDIT: u64 = 20;

/// The trailer breaks a rule; the place is the trailer's.
pub const BAD_TRAILER: u64 = 21;

/// Groups are nested past 16; the place is the slot of the 16th.
pub const DEEP: u64 = 22;

/// A table of the element's linked blocks is absent, not stored or extended, or its reference is 0; the index is the table's.
pub const NO_TABLE: u64 = 23;

/// A table of the element's linked blocks has too few bytes for its entries; the index is the table's.
pub const SHORT_TABLE: u64 = 24;

/// A linked block is absent, not stored or extended, or its reference is 0 by a record of 22 bytes; the index is the block's,
/// through the whole element.
pub const NO_BLOCK: u64 = 25;

/// A linked block has fewer bytes than are taken from it; the index is the block's, through the whole element.
pub const SHORT_BLOCK: u64 = 26;

/// A table of the element's linked blocks is one already walked, or a 257th; the index is the table's.
pub const TABLE_LOOP: u64 = 27;

/// The element is named and not stored yet: offset and length of its slot are 4294967295.
pub const NOT_STORED: u64 = 29;

/// The trailer of the newest edit is another desk's; the place is the trailer's.
pub const OTHER_DESK: u64 = 30;

/// The number and the name of each refusal and what it says, in words for a person.
pub const REFUSALS: [(u64, &str, &str); 29] = [
    (TOO_LONG, "TOO_LONG", "the file is too long"),
    (NOT_HDF, "NOT_HDF", "this is no HDF4 file"),
    (DIR_CUT, "DIR_CUT", "a block of descriptors is not wholly inside the file"),
    (DIR_LOOP, "DIR_LOOP", "the chain of blocks comes back to one already walked"),
    (DIR_OVER, "DIR_OVER", "a block of descriptors overlaps the header or an earlier block"),
    (DIR_BIG, "DIR_BIG", "there are more than 256 blocks or 4,096 slots"),
    (BAD_TAG, "BAD_TAG", "a tag is not allowed"),
    (OUTSIDE, "OUTSIDE", "an element ends past the end of the file"),
    (ON_DIRECTORY, "ON_DIRECTORY", "an element touches the header or a block of descriptors"),
    (TWICE, "TWICE", "two elements have the same tag and reference"),
    (ABSENT, "ABSENT", "there is no element with that tag and reference"),
    (STORAGE, "STORAGE", "the element is stored in a way that is not read here"),
    (CHAIN, "CHAIN", "the record of the element's linked blocks breaks its layout"),
    (SMALL, "SMALL", "the output is too short"),
    (RECORD, "RECORD", "a record breaks its layout"),
    (TYPE, "TYPE", "a number type is not known"),
    (NO_VALUE, "NO_VALUE", "there is no such record, field or component"),
    (PRESENT, "PRESENT", "there is already an element with that tag and reference"),
    (NO_ROOM, "NO_ROOM", "the buffer has no room for the edit"),
    (NO_EDIT, "NO_EDIT", "there is no edit to undo"),
    (BAD_TRAILER, "BAD_TRAILER", "the trailer of the last edit is damaged"),
    (DEEP, "DEEP", "groups are nested more than 16 deep"),
    (NO_TABLE, "NO_TABLE", "a table of the element's linked blocks is not there"),
    (SHORT_TABLE, "SHORT_TABLE", "a table of the element's linked blocks is too short"),
    (NO_BLOCK, "NO_BLOCK", "a linked block of the element is not there"),
    (SHORT_BLOCK, "SHORT_BLOCK", "a linked block of the element is too short"),
    (TABLE_LOOP, "TABLE_LOOP", "the tables of the element's linked blocks repeat or run past 256"),
    (NOT_STORED, "NOT_STORED", "the element is named in the directory and not stored yet"),
    (OTHER_DESK, "OTHER_DESK", "the newest edit is another desk's"),
];

/// What all answers have in common.
pub trait Answer: Debug + PartialEq {
    /// The answer of a call that is refused, with zeros in every value.
    fn refused(number: u64, place: u64) -> Self;
    /// The refusal's number, 0 where the call is granted.
    fn number(&self) -> u64;
    /// The refusal's place in the image.
    fn place(&self) -> u64;
    /// Number, place and values, in order.
    fn numbers(&self) -> Vec<u64>;
}

/// Makes a struct an answer; its values are named in order.
macro_rules! answer {
    ($name:ident: $($value:ident),*) => {
        impl Answer for $name {
            fn refused(number: u64, place: u64) -> $name {
                $name { number, place, ..$name::default() }
            }

            fn number(&self) -> u64 {
                self.number
            }

            fn place(&self) -> u64 {
                self.place
            }

            fn numbers(&self) -> Vec<u64> {
                vec![self.number, self.place, $(self.$value),*]
            }
        }
    };
}

/// What the directory of an image has.
#[repr(C)]
#[derive(Clone, Copy, Debug, Default, PartialEq, Eq)]
pub struct OpenAnswer {
    /// The refusal's number, 0 where the call is granted.
    pub number: u64,
    /// The refusal's place in the image.
    pub place: u64,
    /// Blocks of descriptors.
    pub blocks: u64,
    /// Slots in these blocks, the free ones included.
    pub slots: u64,
    /// Slots that are not free: the elements.
    pub live: u64,
}

answer! {
    OpenAnswer: blocks, slots, live
}

/// Where an element's descriptor stands.
#[repr(C)]
#[derive(Clone, Copy, Debug, Default, PartialEq, Eq)]
pub struct FindAnswer {
    /// The refusal's number, 0 where the call is granted.
    pub number: u64,
    /// The refusal's place in the image.
    pub place: u64,
    /// The place of the descriptor in the image.
    pub slot: u64,
}

answer! {
    FindAnswer: slot
}

/// What was listed.
#[repr(C)]
#[derive(Clone, Copy, Debug, Default, PartialEq, Eq)]
pub struct ListAnswer {
    /// The refusal's number, 0 where the call is granted.
    pub number: u64,
    /// The refusal's place in the image.
    pub place: u64,
    /// Live slots that were written to the table.
    pub elements: u64,
}

answer! {
    ListAnswer: elements
}

/// An element's own part of the image.
#[repr(C)]
#[derive(Clone, Copy, Debug, Default, PartialEq, Eq)]
pub struct ViewAnswer {
    /// The refusal's number, 0 where the call is granted.
    pub number: u64,
    /// The refusal's place in the image.
    pub place: u64,
    /// Where the part starts in the image, 0 where the element has no bytes.
    pub offset: u64,
    /// Bytes of the element.
    pub length: u64,
}

answer! {
    ViewAnswer: offset, length
}

/// How many bytes a copy of an element has.
#[repr(C)]
#[derive(Clone, Copy, Debug, Default, PartialEq, Eq)]
pub struct SizeAnswer {
    /// The refusal's number, 0 where the call is granted.
    pub number: u64,
    /// The refusal's place in the image.
    pub place: u64,
    /// Bytes of the element.
    pub length: u64,
}

answer! {
    SizeAnswer: length
}

/// What was copied.
#[repr(C)]
#[derive(Clone, Copy, Debug, Default, PartialEq, Eq)]
pub struct CopyAnswer {
    /// The refusal's number, 0 where the call is granted.
    pub number: u64,
    /// The refusal's place in the image.
    pub place: u64,
    /// Bytes of the element.
    pub length: u64,
    /// Which table or block of the element's linked blocks is broken, counted from 0, where the number is 23 to 27; else 0.
    pub index: u64,
}

answer! {
    CopyAnswer: length, index
}

/// An element's own part of one of two images.
#[repr(C)]
#[derive(Clone, Copy, Debug, Default, PartialEq, Eq)]
pub struct ChooseAnswer {
    /// The refusal's number, 0 where the call is granted.
    pub number: u64,
    /// The refusal's place in the image.
    pub place: u64,
    /// 1 for the current image, 2 for the fallback.
    pub which: u64,
    /// Where the part starts in that image, 0 where the element has no bytes.
    pub offset: u64,
    /// Bytes of the element.
    pub length: u64,
}

answer! {
    ChooseAnswer: which, offset, length
}

/// What an edit or an undo left.
#[repr(C)]
#[derive(Clone, Copy, Debug, Default, PartialEq, Eq)]
pub struct EditAnswer {
    /// The refusal's number, 0 where the call is granted.
    pub number: u64,
    /// The refusal's place in the image.
    pub place: u64,
    /// Bytes of the new image.
    pub length: u64,
}

answer! {
    EditAnswer: length
}

/// A number type.
#[repr(C)]
#[derive(Clone, Copy, Debug, Default, PartialEq, Eq)]
pub struct NumberTypeAnswer {
    /// The refusal's number, 0 where the call is granted.
    pub number: u64,
    /// The refusal's place in the image.
    pub place: u64,
    /// The version of the record.
    pub version: u64,
    /// The type's code, as 24 for a signed number of 32 bits.
    pub code: u64,
    /// Bits of a number.
    pub width: u64,
    /// How the number is written, as 1 for high byte first.
    pub number_class: u64,
}

answer! {
    NumberTypeAnswer: version, code, width, number_class
}

/// A dimension.
#[repr(C)]
#[derive(Clone, Copy, Debug, Default, PartialEq, Eq)]
pub struct DimensionAnswer {
    /// The refusal's number, 0 where the call is granted.
    pub number: u64,
    /// The refusal's place in the image.
    pub place: u64,
    /// Columns.
    pub x: u64,
    /// Rows.
    pub y: u64,
    /// The tag of the number type's record.
    pub type_tag: u64,
    /// The reference of the number type's record.
    pub type_ref: u64,
    /// Numbers in each point.
    pub elements: u64,
    /// 0 by point, 1 by row, 2 by plane.
    pub interlace: u64,
    /// The tag of the record of how the image is compressed.
    pub compression_tag: u64,
    /// The reference of that record.
    pub compression_ref: u64,
}

answer! {
    DimensionAnswer: x, y, type_tag, type_ref, elements, interlace, compression_tag, compression_ref
}

/// An array; its lists are in the tables.
#[repr(C)]
#[derive(Clone, Copy, Debug, Default, PartialEq, Eq)]
pub struct ArrayAnswer {
    /// The refusal's number, 0 where the call is granted.
    pub number: u64,
    /// The refusal's place in the image.
    pub place: u64,
    /// How many sizes; there is one pair more.
    pub rank: u64,
}

answer! {
    ArrayAnswer: rank
}

/// What was packed.
#[repr(C)]
#[derive(Clone, Copy, Debug, Default, PartialEq, Eq)]
pub struct PackAnswer {
    /// The refusal's number, 0 where the call is granted.
    pub number: u64,
    /// The refusal's place in the image.
    pub place: u64,
    /// Bytes of the record.
    pub length: u64,
}

answer! {
    PackAnswer: length
}

/// A Vgroup; its members are in the table.
#[repr(C)]
#[derive(Clone, Copy, Debug, Default, PartialEq, Eq)]
pub struct GroupAnswer {
    /// The refusal's number, 0 where the call is granted.
    pub number: u64,
    /// The refusal's place in the image.
    pub place: u64,
    /// How many members.
    pub members: u64,
    /// Where the name stands in the image.
    pub name_offset: u64,
    /// Bytes of the name.
    pub name_length: u64,
    /// Where the class stands in the image.
    pub class_offset: u64,
    /// Bytes of the class.
    pub class_length: u64,
    /// The extension's tag.
    pub extension_tag: u64,
    /// The extension's reference.
    pub extension_ref: u64,
    /// The version: 3.
    pub version: u64,
    /// The field named more.
    pub more: u64,
}

answer! {
    GroupAnswer: members, name_offset, name_length, class_offset, class_length, extension_tag, extension_ref, version, more
}

/// The head of a Vdata; its fields are in the tables.
#[repr(C)]
#[derive(Clone, Copy, Debug, Default, PartialEq, Eq)]
pub struct VdataAnswer {
    /// The refusal's number, 0 where the call is granted.
    pub number: u64,
    /// The refusal's place in the image.
    pub place: u64,
    /// 0 where the values stand by record, 1 where they stand by field.
    pub interlace: u64,
    /// How many records.
    pub records: u64,
    /// Bytes of a record.
    pub record_size: u64,
    /// How many fields.
    pub fields: u64,
    /// Where the name stands in the image.
    pub name_offset: u64,
    /// Bytes of the name.
    pub name_length: u64,
    /// Where the class stands in the image.
    pub class_offset: u64,
    /// Bytes of the class.
    pub class_length: u64,
    /// The extension's tag.
    pub extension_tag: u64,
    /// The extension's reference.
    pub extension_ref: u64,
    /// The version: 3.
    pub version: u64,
    /// The field named more.
    pub more: u64,
}

answer! {
    VdataAnswer: interlace, records, record_size, fields, name_offset, name_length, class_offset, class_length, extension_tag,
    extension_ref, version, more
}

/// A value of a Vdata.
#[repr(C)]
#[derive(Clone, Copy, Debug, Default, PartialEq, Eq)]
pub struct ValueAnswer {
    /// The refusal's number, 0 where the call is granted.
    pub number: u64,
    /// The refusal's place in the image.
    pub place: u64,
    /// [`SIGNED`], [`UNSIGNED`], [`FLOAT32`] or [`FLOAT64`].
    pub kind: u64,
    /// Of a signed number its two's complement in 64 bits, of a float its own bits.
    pub bits: u64,
}

answer! {
    ValueAnswer: kind, bits
}

/// What was read of a column of a Vdata.
#[repr(C)]
#[derive(Clone, Copy, Debug, Default, PartialEq, Eq)]
pub struct ColumnAnswer {
    /// The refusal's number, 0 where the call is granted.
    pub number: u64,
    /// The refusal's place in the image.
    pub place: u64,
    /// [`SIGNED`], [`UNSIGNED`], [`FLOAT32`] or [`FLOAT64`]: that of every value.
    pub kind: u64,
    /// How many records: values that were written.
    pub records: u64,
}

answer! {
    ColumnAnswer: kind, records
}

/// What was listed of a Vgroup.
#[repr(C)]
#[derive(Clone, Copy, Debug, Default, PartialEq, Eq)]
pub struct GroupListAnswer {
    /// The refusal's number, 0 where the call is granted.
    pub number: u64,
    /// The refusal's place in the image.
    pub place: u64,
    /// Pairs that were written to the table.
    pub pairs: u64,
}

answer! {
    GroupListAnswer: pairs
}

/// A field of a Vdata.
#[repr(C)]
#[derive(Clone, Copy, Debug, Default, PartialEq, Eq)]
pub struct Field {
    /// The type's code, as it is stored.
    pub code: u16,
    /// Bytes of the field in a record.
    pub size: u16,
    /// Bytes of the fields before it.
    pub offset: u16,
    /// Numbers of the field in a record.
    pub order: u16,
    /// Where the field's name stands in the image.
    pub name_offset: u32,
    /// Bytes of the name.
    pub name_length: u32,
}

extern "C" {
    /// What [`open`] calls.
    pub fn hdf4_open(image: *const u8, n: usize) -> OpenAnswer;
    /// What [`find`] calls.
    pub fn hdf4_find(image: *const u8, n: usize, tag: u16, reference: u16) -> FindAnswer;
    /// What [`list`] calls.
    pub fn hdf4_list(image: *const u8, n: usize, table: *mut u32, room: usize) -> ListAnswer;
    /// What [`view`] calls.
    pub fn hdf4_view(image: *const u8, n: usize, tag: u16, reference: u16) -> ViewAnswer;
    /// What [`size`] calls.
    pub fn hdf4_size(image: *const u8, n: usize, tag: u16, reference: u16) -> SizeAnswer;
    /// What [`copy`] calls.
    pub fn hdf4_copy(image: *const u8, n: usize, tag: u16, reference: u16, out: *mut u8, room: usize) -> CopyAnswer;
    /// What [`choose`] calls.
    pub fn hdf4_choose(current: *const u8, n: usize, fallback: *const u8, m: usize, tag: u16, reference: u16) -> ChooseAnswer;
    /// What [`add`] calls.
    pub fn hdf4_add(
        buffer: *mut u8,
        capacity: usize,
        n: u64,
        desk: u32,
        tag: u16,
        reference: u16,
        data: *const u8,
        size: usize,
    ) -> EditAnswer;
    /// What [`replace`] calls.
    pub fn hdf4_replace(
        buffer: *mut u8,
        capacity: usize,
        n: u64,
        desk: u32,
        tag: u16,
        reference: u16,
        data: *const u8,
        size: usize,
    ) -> EditAnswer;
    /// What [`remove`] calls.
    pub fn hdf4_remove(buffer: *mut u8, capacity: usize, n: u64, desk: u32, tag: u16, reference: u16) -> EditAnswer;
    /// What [`undo`] calls.
    pub fn hdf4_undo(buffer: *mut u8, capacity: usize, n: u64, desk: u32) -> EditAnswer;
    /// What [`read_number_type`] calls.
    pub fn hdf4_read_number_type(image: *const u8, n: usize, reference: u16) -> NumberTypeAnswer;
    /// What [`pack_number_type`] calls.
    pub fn hdf4_pack_number_type(version: u8, code: u8, width: u8, number_class: u8, out: *mut u8, room: usize) -> PackAnswer;
    /// What [`read_dimension`] calls.
    pub fn hdf4_read_dimension(image: *const u8, n: usize, tag: u16, reference: u16) -> DimensionAnswer;
    /// What [`pack_dimension`] calls.
    pub fn hdf4_pack_dimension(
        x: u32,
        y: u32,
        type_tag: u16,
        type_ref: u16,
        elements: u16,
        interlace: u16,
        compression_tag: u16,
        compression_ref: u16,
        out: *mut u8,
        room: usize,
    ) -> PackAnswer;
    /// What [`read_array`] calls.
    pub fn hdf4_read_array(
        image: *const u8,
        n: usize,
        reference: u16,
        sizes: *mut u32,
        sizes_room: usize,
        pairs: *mut u16,
        pairs_room: usize,
    ) -> ArrayAnswer;
    /// What [`pack_array`] calls.
    pub fn hdf4_pack_array(
        sizes: *const u32,
        sizes_count: usize,
        pairs: *const u16,
        pairs_count: usize,
        out: *mut u8,
        room: usize,
    ) -> PackAnswer;
    /// What [`read_group`] calls.
    pub fn hdf4_read_group(image: *const u8, n: usize, reference: u16, members: *mut u16, room: usize) -> GroupAnswer;
    /// What [`pack_group`] calls.
    pub fn hdf4_pack_group(
        members: *const u16,
        members_count: usize,
        name: *const u8,
        name_length: usize,
        class_name: *const u8,
        class_length: usize,
        extension_tag: u16,
        extension_ref: u16,
        version: u16,
        more: u16,
        out: *mut u8,
        room: usize,
    ) -> PackAnswer;
    /// What [`read_vdata`] calls.
    pub fn hdf4_read_vdata(
        image: *const u8,
        n: usize,
        reference: u16,
        fields: *mut u16,
        fields_room: usize,
        names: *mut u32,
        names_room: usize,
    ) -> VdataAnswer;
    /// What [`pack_vdata`] calls.
    pub fn hdf4_pack_vdata(
        interlace: u16,
        records: u32,
        record_size: u16,
        fields: *const u16,
        fields_count: usize,
        name_lengths: *const u16,
        name_lengths_count: usize,
        names: *const u8,
        names_length: usize,
        name: *const u8,
        name_length: usize,
        class_name: *const u8,
        class_length: usize,
        extension_tag: u16,
        extension_ref: u16,
        version: u16,
        more: u16,
        out: *mut u8,
        room: usize,
    ) -> PackAnswer;
    /// What [`read_value`] calls.
    pub fn hdf4_read_value(image: *const u8, n: usize, reference: u16, record: u64, field: u64, component: u64) -> ValueAnswer;
    /// What [`read_column`] calls.
    pub fn hdf4_read_column(
        image: *const u8,
        n: usize,
        reference: u16,
        field: u64,
        component: u64,
        out: *mut u64,
        room: usize,
    ) -> ColumnAnswer;
    /// What [`list_group`] calls.
    pub fn hdf4_list_group(image: *const u8, n: usize, reference: u16, list: *mut u16, room: usize) -> GroupListAnswer;
    /// What [`read_fields`] calls.
    pub fn hdf4_read_fields(image: *const u8, n: usize, reference: u16, table: *mut Field, room: usize) -> VdataAnswer;
}

/// Opens an image: counts its directory, or finds the first rule that it breaks.
#[inline]
pub fn open(image: &[u8]) -> OpenAnswer {
    unsafe { hdf4_open(image.as_ptr(), image.len()) }
}

/// Finds the live slot that has the base tag of a tag and a reference.
#[inline]
pub fn find(image: &[u8], tag: u16, reference: u16) -> FindAnswer {
    unsafe { hdf4_find(image.as_ptr(), image.len(), tag, reference) }
}

/// Lists the live slots in chain order to the front of a lent table: tag, reference, offset and length of each, as they stand in
/// its slot. Offset and length of an element that is named and not stored yet are 4294967295; every call that reads it answers
/// [`NOT_STORED`]. A table of 4 times [`MOST_ELEMENTS`] entries is always enough.
#[inline]
pub fn list(image: &[u8], table: &mut [u32]) -> ListAnswer {
    unsafe { hdf4_list(image.as_ptr(), image.len(), table.as_mut_ptr(), table.len()) }
}

/// Finds an element's own part of the image. The element is plain: an extended one is refused at its slot.
#[inline]
pub fn view(image: &[u8], tag: u16, reference: u16) -> ViewAnswer {
    unsafe { hdf4_view(image.as_ptr(), image.len(), tag, reference) }
}

/// Tells how many bytes `hdf4_copy` would write, and so how long its output must be. The element is plain or of linked blocks;
/// their record is judged, and their tables and blocks are not: `hdf4_copy` may still refuse these.
#[inline]
pub fn size(image: &[u8], tag: u16, reference: u16) -> SizeAnswer {
    unsafe { hdf4_size(image.as_ptr(), image.len(), tag, reference) }
}

/// Copies an element's bytes to the front of a lent output; the rest of it stays as it was. The element is plain or of linked
/// blocks, of which one that was never written reads as zeros. Where a table or a block is broken the refusal says which: its
/// place is the element's slot, and its index that of the first one that a walk meets. The output may not lie in the image.
#[inline]
pub fn copy(image: &[u8], tag: u16, reference: u16, out: &mut [u8]) -> CopyAnswer {
    unsafe { hdf4_copy(image.as_ptr(), image.len(), tag, reference, out.as_mut_ptr(), out.len()) }
}

/// Finds an element's own part of the current image or, where that has no such element, of the fallback. Both must open, and the
/// element is plain: one that is extended in the current image is refused, whatever the fallback has. A refusal by the opening of
/// an image, or by the element's storage, names a place in that image.
#[inline]
pub fn choose(current: &[u8], fallback: &[u8], tag: u16, reference: u16) -> ChooseAnswer {
    unsafe { hdf4_choose(current.as_ptr(), current.len(), fallback.as_ptr(), fallback.len(), tag, reference) }
}

/// Adds an element with its data, in the first free slot or in a new block.
#[inline]
pub fn add(buffer: &mut [u8], n: u64, desk: u32, tag: u16, reference: u16, data: &[u8]) -> EditAnswer {
    unsafe { hdf4_add(buffer.as_mut_ptr(), buffer.len(), n, desk, tag, reference, data.as_ptr(), data.len()) }
}

/// Gives an element other data.
#[inline]
pub fn replace(buffer: &mut [u8], n: u64, desk: u32, tag: u16, reference: u16, data: &[u8]) -> EditAnswer {
    unsafe { hdf4_replace(buffer.as_mut_ptr(), buffer.len(), n, desk, tag, reference, data.as_ptr(), data.len()) }
}

/// Removes an element.
#[inline]
pub fn remove(buffer: &mut [u8], n: u64, desk: u32, tag: u16, reference: u16) -> EditAnswer {
    unsafe { hdf4_remove(buffer.as_mut_ptr(), buffer.len(), n, desk, tag, reference) }
}

/// Undoes the newest edit that the image carries, for the desk that made it: the image is as before the edit, byte for byte.
/// Another desk is refused with [`OTHER_DESK`], at the place of the edit's trailer. The trailer ends the image. If it has 36
/// bytes, the four before its last four are the desk, most significant byte first; if it has 32, it is from before trailers named
/// a desk, and desk 0's.
#[inline]
pub fn undo(buffer: &mut [u8], n: u64, desk: u32) -> EditAnswer {
    unsafe { hdf4_undo(buffer.as_mut_ptr(), buffer.len(), n, desk) }
}

/// Reads a number type, tag 106: four bytes of any values.
#[inline]
pub fn read_number_type(image: &[u8], reference: u16) -> NumberTypeAnswer {
    unsafe { hdf4_read_number_type(image.as_ptr(), image.len(), reference) }
}

/// Packs a number type: 4 bytes.
#[inline]
pub fn pack_number_type(version: u8, code: u8, width: u8, number_class: u8, out: &mut [u8]) -> PackAnswer {
    unsafe { hdf4_pack_number_type(version, code, width, number_class, out.as_mut_ptr(), out.len()) }
}

/// Reads a dimension, of tag 300, 307 or 308. The tag may be any, and is looked up by its base tag.
#[inline]
pub fn read_dimension(image: &[u8], tag: u16, reference: u16) -> DimensionAnswer {
    unsafe { hdf4_read_dimension(image.as_ptr(), image.len(), tag, reference) }
}

/// Packs a dimension: 20 bytes.
#[inline]
pub fn pack_dimension(
    x: u32,
    y: u32,
    type_tag: u16,
    type_ref: u16,
    elements: u16,
    interlace: u16,
    compression_tag: u16,
    compression_ref: u16,
    out: &mut [u8],
) -> PackAnswer {
    unsafe {
        hdf4_pack_dimension(
            x,
            y,
            type_tag,
            type_ref,
            elements,
            interlace,
            compression_tag,
            compression_ref,
            out.as_mut_ptr(),
            out.len(),
        )
    }
}

/// Reads an array, tag 701: its sizes, and one pair more, the data's type first.
#[inline]
pub fn read_array(image: &[u8], reference: u16, sizes: &mut [u32], pairs: &mut [u16]) -> ArrayAnswer {
    unsafe {
        hdf4_read_array(image.as_ptr(), image.len(), reference, sizes.as_mut_ptr(), sizes.len(), pairs.as_mut_ptr(), pairs.len())
    }
}

/// Packs an array: 6 bytes, and 8 for each size.
#[inline]
pub fn pack_array(sizes: &[u32], pairs: &[u16], out: &mut [u8]) -> PackAnswer {
    unsafe { hdf4_pack_array(sizes.as_ptr(), sizes.len(), pairs.as_ptr(), pairs.len(), out.as_mut_ptr(), out.len()) }
}

/// Reads a Vgroup, tag 1965: tag and reference of each member.
#[inline]
pub fn read_group(image: &[u8], reference: u16, members: &mut [u16]) -> GroupAnswer {
    unsafe { hdf4_read_group(image.as_ptr(), image.len(), reference, members.as_mut_ptr(), members.len()) }
}

/// Packs a Vgroup.
#[inline]
pub fn pack_group(
    members: &[u16],
    name: &[u8],
    class_name: &[u8],
    extension_tag: u16,
    extension_ref: u16,
    version: u16,
    more: u16,
    out: &mut [u8],
) -> PackAnswer {
    unsafe {
        hdf4_pack_group(
            members.as_ptr(),
            members.len(),
            name.as_ptr(),
            name.len(),
            class_name.as_ptr(),
            class_name.len(),
            extension_tag,
            extension_ref,
            version,
            more,
            out.as_mut_ptr(),
            out.len(),
        )
    }
}

/// Reads the head of a Vdata, tag 1962: type, size, offset and order of each field, and place in the image and length of each
/// field's name. A type is given as it is stored, with [`LITTLE_ENDIAN`] added where numbers stand low byte first. Tables of 4
/// times and 2 times [`MOST_FIELDS`] entries are always enough.
#[inline]
pub fn read_vdata(image: &[u8], reference: u16, fields: &mut [u16], names: &mut [u32]) -> VdataAnswer {
    unsafe {
        hdf4_read_vdata(
            image.as_ptr(),
            image.len(),
            reference,
            fields.as_mut_ptr(),
            fields.len(),
            names.as_mut_ptr(),
            names.len(),
        )
    }
}

/// Packs the head of a Vdata. The fields are given by four numbers each, as they are read; by the length of each field's name;
/// and by these names one after the other.
#[inline]
pub fn pack_vdata(
    interlace: u16,
    records: u32,
    record_size: u16,
    fields: &[u16],
    name_lengths: &[u16],
    names: &[u8],
    name: &[u8],
    class_name: &[u8],
    extension_tag: u16,
    extension_ref: u16,
    version: u16,
    more: u16,
    out: &mut [u8],
) -> PackAnswer {
    unsafe {
        hdf4_pack_vdata(
            interlace,
            records,
            record_size,
            fields.as_ptr(),
            fields.len(),
            name_lengths.as_ptr(),
            name_lengths.len(),
            names.as_ptr(),
            names.len(),
            name.as_ptr(),
            name.len(),
            class_name.as_ptr(),
            class_name.len(),
            extension_tag,
            extension_ref,
            version,
            more,
            out.as_mut_ptr(),
            out.len(),
        )
    }
}

/// Reads one value of a Vdata, its head of tag 1962 and its data of tag 1963. All indices count from 0. Kind and bits are the
/// number's, whichever of its bytes stands first in the image.
#[inline]
pub fn read_value(image: &[u8], reference: u16, record: u64, field: u64, component: u64) -> ValueAnswer {
    unsafe { hdf4_read_value(image.as_ptr(), image.len(), reference, record, field, component) }
}

/// Reads one component of one field in every record of a Vdata, in order: the bits of each value, as `hdf4_read_value` gives
/// them. There must be room for a value of every record. A Vdata without records has a column without values, and needs no data
/// of tag 1963.
#[inline]
pub fn read_column(image: &[u8], reference: u16, field: u64, component: u64, out: &mut [u64]) -> ColumnAnswer {
    unsafe { hdf4_read_column(image.as_ptr(), image.len(), reference, field, component, out.as_mut_ptr(), out.len()) }
}

/// Lists the members of a Vgroup in order, each member of tag 1965 followed by its own members: tag and reference of each. There
/// are at most [`MOST_PAIRS`] pairs, and at most 16 groups nested, the named one included. It keeps 576 bytes of stack, or 264
/// and 336 for each group nested where that is more: 5,632 at the most.
#[inline]
pub fn list_group(image: &[u8], reference: u16, list: &mut [u16]) -> GroupListAnswer {
    unsafe { hdf4_list_group(image.as_ptr(), image.len(), reference, list.as_mut_ptr(), list.len()) }
}

/// Reads the head of a Vdata as `hdf4_read_vdata` does, to one table with an entry a field. It is refused with [`SMALL`] where
/// there are more fields than entries.
#[inline]
pub fn read_fields(image: &[u8], reference: u16, table: &mut [Field]) -> VdataAnswer {
    unsafe { hdf4_read_fields(image.as_ptr(), image.len(), reference, table.as_mut_ptr(), table.len()) }
}
