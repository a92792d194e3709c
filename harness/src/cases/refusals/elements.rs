//! View, size and copy: plain elements, and elements of linked blocks as far as their records and the room. A record is full,
//! of 22 bytes, or sparse, of 16. The tables and blocks are in `links`.

use super::ask::{Ask, Rooms, Written};
use super::{fault, granted, over, refused, Case, Fault, UNSTORED};
use crate::cases::pieces::{file, numbers16, numbers32, Image, ALL_ONES};
use crate::storage::Layout;
use crate::tally::Call;

/// The slots of the linked element 302/1, of its tables and of its blocks.
pub const RECORD: usize = 22;
pub const TABLE: usize = 34;
pub const SECOND_TABLE: usize = 46;
pub const BLOCK: usize = 58;
pub const SECOND_BLOCK: usize = 70;
pub const THIRD_BLOCK: usize = 82;
pub const LAST_BLOCK: usize = 94;

/// The slot of the plain element 100/1.
const PLAIN: usize = 106;

/// Where the fields of a full record stand in it.
const KIND: usize = 0;
const LENGTH: usize = 4;
const FIRST_LEN: usize = 8;
const BLK_LEN: usize = 12;
const NUM_BLK: usize = 16;

/// Those of a sparse record. It has no first_len.
const SPARSE_LENGTH: usize = 2;
const SPARSE_BLK_LEN: usize = 6;
const SPARSE_NUM_BLK: usize = 10;
const SPARSE_SIZE: usize = 16;

pub const PLAIN_20: u16 = 20;

const ABSENT: [Fault; 1] = [fault("11", "a reference that is not there", [11, 0], |ask| ask.reference = 2)];

const UNSTORED_PLAIN: [Fault; 1] =
    [fault("29", "an element that is not stored yet", [29, 106], |ask| ask.image.unstore(PLAIN))];

const EXTENDED: [Fault; 2] = [
    fault("12", "an extended element", [12, 22], |ask| (ask.tag, ask.reference) = (302, 1)),
    fault("12", "an extended element by its own tag", [12, 22], |ask| (ask.tag, ask.reference) = (16686, 1)),
];

const CUT: [Fault; 2] = [
    fault("13 cut", "a record of 3 bytes", [13, 22], |ask| ask.image.put_length(RECORD, 3)),
    fault("13 cut", "a record of no bytes", [13, 22], |ask| ask.image.put_length(RECORD, 0)),
];

/// A record of 4 bytes has no length for which there could be too little room, and no table.
const FOUR_BYTES: [Fault; 1] =
    [fault("13 size", "a record of 4 bytes", [13, 22], |ask| ask.image.put_length(RECORD, 4))];

/// What can be wrong with a record of one layout: another kind, or the length of the other layout with this one's kind; the
/// kind of the other layout, in this one's length or in that of neither; and the rest.
pub struct OfRecord {
    pub kind: [Fault; 2],
    others_kind: [Fault; 2],
    pub rest: &'static [Fault],
}

const OF_FULL: OfRecord = OfRecord {
    kind: [
        fault("12", "another kind", [12, 22], |ask| ask.image.put32_in(RECORD, KIND, 2)),
        fault("12", "16 bytes with a kind of 32 bits", [12, 22], |ask| ask.image.put_length(RECORD, 16)),
    ],
    others_kind: [
        fault("12", "a kind of 16 bits", [12, 22], |ask| ask.image.put32_in(RECORD, KIND, 0x0001_0000)),
        fault("13 size", "21 bytes with a kind of 16 bits", [13, 22], |ask| {
            ask.image.put_length(RECORD, 21);
            ask.image.put32_in(RECORD, KIND, 0x0001_0000);
        }),
    ],
    rest: &[
        fault("13 size", "a record of 21 bytes", [13, 22], |ask| ask.image.put_length(RECORD, 21)),
        fault("13 size", "a record of 23 bytes", [13, 22], |ask| ask.image.put_length(RECORD, 23)),
        fault("13 first_len", "a first_len of 0", [13, 22], |ask| ask.image.put32_in(RECORD, FIRST_LEN, 0)),
        fault("13 blk_len", "a blk_len of 0", [13, 22], |ask| ask.image.put32_in(RECORD, BLK_LEN, 0)),
        fault("13 num_blk", "a num_blk of 0", [13, 22], |ask| ask.image.put32_in(RECORD, NUM_BLK, 0)),
    ],
};

const OF_SPARSE: OfRecord = OfRecord {
    kind: [
        fault("12", "another kind", [12, 22], |ask| ask.image.put16_in(RECORD, KIND, 2)),
        fault("12", "22 bytes with a kind of 16 bits", [12, 22], |ask| ask.image.put_length(RECORD, 22)),
    ],
    others_kind: [
        fault("12", "a kind of 32 bits", [12, 22], |ask| ask.image.put32_in(RECORD, KIND, 1)),
        fault("13 size", "15 bytes with a kind of 32 bits", [13, 22], |ask| {
            ask.image.put_length(RECORD, 15);
            ask.image.put32_in(RECORD, KIND, 1);
        }),
    ],
    rest: &[
        fault("13 size", "a record of 15 bytes", [13, 22], |ask| ask.image.put_length(RECORD, 15)),
        fault("13 size", "a record of 17 bytes", [13, 22], |ask| ask.image.put_length(RECORD, 17)),
        fault("13 blk_len", "a blk_len of 0", [13, 22], |ask| ask.image.put32_in(RECORD, SPARSE_BLK_LEN, 0)),
        fault("13 num_blk", "a num_blk of 0", [13, 22], |ask| ask.image.put32_in(RECORD, SPARSE_NUM_BLK, 0)),
    ],
};

pub const SMALL: [Fault; 2] = [
    fault("14", "one byte too little room", [14, 0], |ask| ask.rooms.bytes = 8),
    fault("14", "no room", [14, 0], |ask| ask.rooms.bytes = 0),
];

const SMALL_FOR_PLAIN: [Fault; 1] = [fault("14", "room for 2 of 3 bytes", [14, 0], |ask| ask.rooms.bytes = 2)];

pub fn cases() -> Vec<Case> {
    let linked = |layout| [records(layout, four_blocks(layout)), records(layout, nine_bytes(layout)), rooms(layout)];
    [&[plain(), without_bytes()], &linked(Layout::Full)[..], &linked(Layout::Sparse)].concat().concat()
}

fn plain() -> Vec<Case> {
    let image = || linked(Layout::Full);
    let viewed = [granted("a plain element", view(100, image()), &[173, 3], Written::default())];
    let sized = [granted("a plain element", size(100, image()), &[3], Written::default())];
    let copied = [granted("a plain element", copy(100, image(), 4), &[3, 0], Written::bytes(b"hub"))];
    let (extended, room) = (over(&EXTENDED, &viewed), over(&SMALL_FOR_PLAIN, &copied));
    let all = [&viewed[..], &sized, &copied].concat();
    [
        over(&ABSENT, &all),
        over(&UNSTORED_PLAIN, &all),
        over(&UNSTORED, &extended),
        over(&UNSTORED_PLAIN, &room),
        extended,
        room,
        all,
    ]
    .concat()
}

/// What has no bytes and is stored: a machine type, whatever its fields, and an element of length 0. An extended machine type
/// has no record.
fn without_bytes() -> Vec<Case> {
    let file = |tag, length| {
        let mut image = file(&[(tag, 1, Vec::new())]);
        image.put_offset(RECORD, ALL_ONES);
        image.put_length(RECORD, length);
        image
    };
    let empty = |of, tag, length| {
        let case = |ask, values| granted(of, ask, values, Written::default());
        let image = || file(tag, length);
        [case(view(tag, image()), &[0, 0][..]), case(size(tag, image()), &[0]), case(copy(tag, image(), 4), &[0, 0])]
    };
    let (of, extended) = ("an extended machine type of all ones", || file(16491, ALL_ONES));
    let others = [
        refused(of, "12", view(107, extended()), [12, 22]),
        refused(of, "13 cut", size(107, extended()), [13, 22]),
        refused(of, "13 cut", copy(107, extended(), 4), [13, 22]),
    ];
    let machine_type = empty("a machine type of all ones", 107, ALL_ONES);
    [&machine_type[..], &empty("no bytes at an offset of all ones", 100, 0), &others].concat()
}

/// The element, its record's kind, the rest of the record.
fn records(layout: Layout, granted: Case) -> Vec<Case> {
    let (granted, of_record) = ([granted], of_record(layout));
    let (cut, kind) = (over(&CUT, &granted), over(&of_record.kind, &granted));
    let rest = [over(&FOUR_BYTES, &granted), over(of_record.rest, &granted)].concat();
    let record = [&cut[..], &kind, &rest].concat();
    [
        over(&UNSTORED, &granted),
        over(&UNSTORED, &record),
        over(&CUT[..1], &kind),
        over(&of_record.kind, &rest),
        over(&of_record.others_kind, &granted),
        record,
        granted.into(),
    ]
    .concat()
}

/// The element, its record, then the room.
fn rooms(layout: Layout) -> Vec<Case> {
    let room = over(&SMALL, &[four_blocks(layout)]);
    let before = [&UNSTORED[..], &of_record(layout).kind, of_record(layout).rest].concat();
    [over(&before, &room), room].concat()
}

pub fn of_record(layout: Layout) -> &'static OfRecord {
    match layout {
        Layout::Full => &OF_FULL,
        Layout::Sparse => &OF_SPARSE,
    }
}

/// The copy of a linked element that is whole: its length, and index 0.
pub fn four_blocks(layout: Layout) -> Case {
    granted("four blocks", copy(302, linked(layout), 12), &[9, 0], Written::bytes(b"signalbox")).in_layout(layout)
}

/// Its size.
pub fn nine_bytes(layout: Layout) -> Case {
    granted("four blocks", size(302, linked(layout)), &[9], Written::default()).in_layout(layout)
}

fn view(tag: u16, image: Image) -> Ask {
    Ask { tag, reference: 1, ..Ask::on(Call::View, image) }
}

pub fn size(tag: u16, image: Image) -> Ask {
    Ask { tag, reference: 1, ..Ask::on(Call::Size, image) }
}

pub fn copy(tag: u16, image: Image, room: usize) -> Ask {
    Ask { tag, reference: 1, rooms: Rooms { bytes: room, ..Rooms::default() }, ..Ask::on(Call::Copy, image) }
}

/// 302/1 of nine bytes in four blocks, two for each table; the plain 100/1; and 20/0, which would do as a table or a block.
pub fn linked(layout: Layout) -> Image {
    file(&[
        (16686, 1, record(layout, [9, 3, 2, 2], 1)),
        (PLAIN_20, 1, numbers16(&[2, 3, 4])),
        (PLAIN_20, 2, numbers16(&[0, 5, 6])),
        (PLAIN_20, 3, b"sig".to_vec()),
        (PLAIN_20, 4, b"na".to_vec()),
        (PLAIN_20, 5, b"lb".to_vec()),
        (PLAIN_20, 6, b"ox".to_vec()),
        (100, 1, b"hub".to_vec()),
        (PLAIN_20, 0, numbers16(&[2, 3, 4])),
    ])
}

/// A record of linked blocks: length, first_len, blk_len and num_blk, and link_ref.
pub fn record(layout: Layout, [length, first_len, blk_len, num_blk]: [u32; 4], link_ref: u16) -> Vec<u8> {
    match layout {
        Layout::Full => [numbers32(&[1, length, first_len, blk_len, num_blk]), numbers16(&[link_ref])].concat(),
        Layout::Sparse => [numbers16(&[1]), numbers32(&[length, blk_len, num_blk]), numbers16(&[link_ref])].concat(),
    }
}

/// Another length of 302/1, in its record of either layout.
pub fn put_element_length(image: &mut Image, length: u32) {
    let place = if image.length(RECORD) == SPARSE_SIZE { SPARSE_LENGTH } else { LENGTH };
    image.put32_in(RECORD, place, length);
}

/// Another link_ref of 302/1, the last field of its record.
pub fn put_link_ref(image: &mut Image, reference: u16) {
    image.put16_in(RECORD, image.length(RECORD) - 2, reference);
}
