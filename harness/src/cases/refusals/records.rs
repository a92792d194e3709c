//! Number types, dimensions and arrays.

use super::ask::{Ask, Rooms, Written};
use super::{element_first, fault, granted, over, refused, Case, Fault};
use crate::cases::pieces::{file, numbers16, numbers32, Image};
use crate::tally::Call;

/// The slot of the record in each file.
const SLOT: usize = 22;

const ABSENT: [Fault; 1] = [fault("11", "a reference that is not there", [11, 0], |ask| ask.reference = 2)];

const EXTENDED_TYPE: [Fault; 1] = [fault("12", "an extended record", [12, 22], |ask| ask.image.put_tag(SLOT, 16490))];

const BAD_TYPE: [Fault; 3] = [
    fault("15", "a record of 3 bytes", [15, 22], |ask| ask.image.put_length(SLOT, 3)),
    fault("15", "a record of 5 bytes", [15, 22], |ask| ask.image.put_length(SLOT, 5)),
    fault("15", "a record of no bytes", [15, 22], |ask| ask.image.put_length(SLOT, 0)),
];

const NO_DIMENSION: [Fault; 1] = [fault("11", "another tag", [11, 0], |ask| ask.tag = 307)];

const EXTENDED_DIMENSION: [Fault; 1] =
    [fault("12", "an extended record", [12, 22], |ask| ask.image.put_tag(SLOT, 16684))];

const BAD_DIMENSION: [Fault; 4] = [
    fault("15 length", "a record of 18 bytes", [15, 22], |ask| ask.image.put_length(SLOT, 18)),
    fault("15 length", "a record of 19 bytes", [15, 22], |ask| ask.image.put_length(SLOT, 19)),
    fault("15 length", "a record of 21 bytes", [15, 22], |ask| ask.image.put_length(SLOT, 21)),
    fault("15 interlace", "interlace 3", [15, 22], |ask| ask.image.put16_in(SLOT, 14, 3)),
];

const EXTENDED_ARRAY: [Fault; 1] = [fault("12", "an extended record", [12, 22], |ask| ask.image.put_tag(SLOT, 17085))];

/// The first of these records has no rank for which there could be too little room.
const SHORT_ARRAY: [Fault; 4] = [
    fault("15 length", "a record of 1 byte", [15, 22], |ask| ask.image.put_length(SLOT, 1)),
    fault("15 length", "a record of 21 bytes", [15, 22], |ask| ask.image.put_length(SLOT, 21)),
    fault("15 length", "a record of 23 bytes", [15, 22], |ask| ask.image.put_length(SLOT, 23)),
    fault("15 length", "rank 3 in a record for rank 2", [15, 22], |ask| ask.image.put16_in(SLOT, 0, 3)),
];

const NO_RANK: [Fault; 1] = [fault("15 rank", "rank 0 in a record of 6 bytes", [15, 22], |ask| {
    ask.image.put16_in(SLOT, 0, 0);
    ask.image.put_length(SLOT, 6);
})];

const SMALL_SIZES: [Fault; 2] = [
    fault("14 sizes", "room for one size of two", [14, 0], |ask| ask.rooms.longs = 1),
    fault("14 sizes", "no room at all", [14, 0], |ask| (ask.rooms.longs, ask.rooms.shorts) = (0, 0)),
];

const SMALL_PAIRS: [Fault; 2] = [
    fault("14 pairs", "one entry too few for the pairs", [14, 0], |ask| ask.rooms.shorts = 5),
    fault("14 pairs", "room for half a pair", [14, 0], |ask| ask.rooms.shorts = 1),
];

pub fn cases() -> Vec<Case> {
    [number_types(), dimensions(), arrays()].concat()
}

fn number_types() -> Vec<Case> {
    let ask = Ask { reference: 1, ..Ask::on(Call::ReadNumberType, with_record(106, vec![1, 24, 32, 1])) };
    let read = [granted("a number type", ask, &[1, 24, 32, 1], Written::default())];
    let bad = over(&BAD_TYPE, &read);
    [element_first(&ABSENT, &EXTENDED_TYPE, &read, &bad), bad, read.into()].concat()
}

fn dimensions() -> Vec<Case> {
    let record = [numbers32(&[12, 10]), numbers16(&[106, 2, 1, 2, 11, 7])].concat();
    let ask = Ask { tag: 300, reference: 1, ..Ask::on(Call::ReadDimension, with_record(300, record)) };
    let read = [granted("a dimension", ask, &[12, 10, 106, 2, 1, 2, 11, 7], Written::default())];
    let bad = over(&BAD_DIMENSION, &read);
    let element = element_first(&ABSENT, &EXTENDED_DIMENSION, &read, &bad);
    [over(&NO_DIMENSION, &read), element, bad, machine_types(), read.into()].concat()
}

/// Any tag can be read as a dimension. A machine type has no bytes, and is not taken for one that is not stored yet.
fn machine_types() -> Vec<Case> {
    let read = |tag| {
        let mut image = with_record(tag, Vec::new());
        image.unstore(SLOT);
        Ask { tag, reference: 1, ..Ask::on(Call::ReadDimension, image) }
    };
    vec![
        refused("a machine type of all ones", "15 length", read(107), [15, 22]),
        refused("an extended machine type of all ones", "12", read(16491), [12, 22]),
    ]
}

/// The record, then the rooms.
fn arrays() -> Vec<Case> {
    let record = [numbers16(&[2]), numbers32(&[3, 4]), numbers16(&[106, 1, 106, 2, 106, 3])].concat();
    let rooms = Rooms { longs: 3, shorts: 8, ..Rooms::default() };
    let ask = Ask { reference: 1, rooms, ..Ask::on(Call::ReadArray, with_record(701, record)) };
    let written = Written { longs: vec![3, 4], shorts: vec![106, 1, 106, 2, 106, 3], ..Written::default() };
    let read = [granted("an array", ask, &[2], written)];
    let bad = [over(&SHORT_ARRAY, &read), over(&NO_RANK, &read)].concat();
    let small = [over(&SMALL_SIZES, &read), over(&SMALL_PAIRS, &read)].concat();
    let later = [&bad[..], &small].concat();
    [
        element_first(&ABSENT, &EXTENDED_ARRAY, &read, &later),
        over(&SHORT_ARRAY[1..], &small),
        over(&NO_RANK, &over(&SMALL_PAIRS[1..], &read)),
        later,
        read.into(),
    ]
    .concat()
}

/// A record with the reference 1, and another element behind it.
fn with_record(tag: u16, record: Vec<u8>) -> Image {
    file(&[(tag, 1, record), (100, 1, b"hub".to_vec())])
}
