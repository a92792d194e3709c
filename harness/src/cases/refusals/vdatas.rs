//! Vdata heads, by both calls that read them, Vdata values, and columns of them.

use super::ask::{Ask, Rooms, Written};
use super::types::{unknown_types, HEAD, TYPE};
use super::{element_first, fault, granted, over, Case, Fault, UNSTORED};
use crate::cases::pieces::{file, hex, numbers16, numbers32, text, vdata_head, Image};
use crate::tally::Call;
use hdf4_sys::Field;

/// The slots of the data, and of a second head where there is one.
const DATA: usize = 34;
const SECOND_HEAD: usize = 34;

const HEAD_TAG: u16 = 1962;
const DATA_TAG: u16 = 1963;
const EXTENDED_HEAD: u16 = 18346;
const EXTENDED_DATA: u16 = 18347;

/// Where the numbers of a head stand in it, of the sizes, offsets and orders of two fields the first.
const INTERLACE: usize = 0;
const RECORDS: usize = 2;
const RECORD_SIZE: usize = 6;
const COUNT: usize = 8;
const SIZE: usize = 14;
const OFFSET: usize = 18;
const ORDER: usize = 22;
const VERSION: usize = 43;

const ABSENT: [Fault; 1] = [fault("11", "no head", [11, 0], |ask| ask.image.put_reference(HEAD, 7))];

const EXTENDED: [Fault; 1] = [fault("12", "an extended head", [12, 22], |ask| ask.image.put_tag(HEAD, EXTENDED_HEAD))];

/// Heads that do not tell how many records, fields or components there are.
const UNKNOWN: [Fault; 2] = [
    fault("15 cut", "a head of no bytes", [15, 22], |ask| ask.image.put_length(HEAD, 0)),
    fault("15 cut", "a count of 3 in a head for 2", [15, 22], |ask| ask.image.put16_in(HEAD, COUNT, 3)),
];

/// Layout, interlace and orders.
const LAYOUT: [Fault; 5] = [
    fault("15 cut", "a head of 46 bytes", [15, 22], |ask| ask.image.put_length(HEAD, 46)),
    fault("15 version", "version 4", [15, 22], |ask| ask.image.put16_in(HEAD, VERSION, 4)),
    fault("15 interlace", "interlace 2", [15, 22], |ask| ask.image.put16_in(HEAD, INTERLACE, 2)),
    fault("15 order", "an order of 0", [15, 22], |ask| ask.image.put16_in(HEAD, ORDER, 0)),
    fault("15 order", "a second order of 0", [15, 22], |ask| ask.image.put16_in(HEAD, ORDER + 2, 0)),
];

const UNKNOWN_TYPE: [Fault; 18] = unknown_types(22);

const SIZES: [Fault; 4] = [
    fault("15 size", "a wrong size", [15, 22], |ask| ask.image.put16_in(HEAD, SIZE, 4)),
    fault("15 size low first", "a wrong second size", [15, 22], |ask| ask.image.put16_in(HEAD, SIZE + 2, 2)),
    fault("15 offset", "a wrong offset", [15, 22], |ask| ask.image.put16_in(HEAD, OFFSET + 2, 4)),
    fault("15 record size", "a wrong record size", [15, 22], |ask| ask.image.put16_in(HEAD, RECORD_SIZE, 8)),
];

const SMALL: [Fault; 3] = [
    fault("14 fields", "one entry too few for the fields", [14, 0], |ask| ask.rooms.shorts = 7),
    fault("14 fields", "no room at all", [14, 0], |ask| (ask.rooms.shorts, ask.rooms.longs) = (0, 0)),
    fault("14 names", "one entry too few for the names", [14, 0], |ask| ask.rooms.longs = 3),
];

const SMALL_TABLE: [Fault; 2] = [
    fault("14", "room for one field of two", [14, 0], |ask| ask.rooms.fields = 1),
    fault("14", "no room", [14, 0], |ask| ask.rooms.fields = 0),
];

/// Of two heads the first has 256 fields, the second 257.
const MANY_FIELDS: [Fault; 1] = [fault("15 count", "257 fields", [15, 34], |ask| ask.reference = 2)];

const BAD_SECOND: [Fault; 2] = [
    fault("29", "a head that is not stored yet", [29, 34], |ask| ask.image.unstore(SECOND_HEAD)),
    fault("12", "an extended head", [12, 34], |ask| ask.image.put_tag(SECOND_HEAD, EXTENDED_HEAD)),
];

const UNKNOWN_TYPES: [Fault; 2] = [
    fault("16", "type 26 in both heads", [16, 22], |ask| put_type_in_both(ask, 26)),
    fault("16 low first", "type 16384 + 26 in both heads", [16, 22], |ask| put_type_in_both(ask, 16410)),
];

fn put_type_in_both(ask: &mut Ask, code: u16) {
    [HEAD, SECOND_HEAD].into_iter().for_each(|slot| ask.image.put16_in(slot, TYPE, code));
}

const INDICES: [Fault; 6] = [
    fault("17 record", "record 2 of 2", [17, 0], |ask| ask.indices[0] = 2),
    fault("17 record", "record 4,294,967,297", [17, 0], |ask| ask.indices[0] = 0x1_0000_0001),
    fault("17 field", "field 2 of 2", [17, 0], |ask| ask.indices[1] = 2),
    fault("17 field", "the greatest field", [17, 0], |ask| ask.indices[1] = u64::MAX),
    fault("17 component", "component 1 of 1", [17, 0], |ask| ask.indices[2] = 1),
    fault("17 component", "component 65,536", [17, 0], |ask| ask.indices[2] = 65536),
];

const NO_DATA: [Fault; 1] = [fault("11 data", "no data", [11, 0], |ask| ask.image.put_reference(DATA, 7))];

const UNSTORED_DATA: [Fault; 1] =
    [fault("29 data", "data that are not stored yet", [29, 34], |ask| ask.image.unstore(DATA))];

const EXTENDED_VALUES: [Fault; 1] =
    [fault("12 data", "extended data", [12, 34], |ask| ask.image.put_tag(DATA, EXTENDED_DATA))];

const SHORT_DATA: [Fault; 2] = [
    fault("15 data", "11 bytes of data", [15, 34], |ask| ask.image.put_length(DATA, 11)),
    fault("15 data", "no bytes of data", [15, 34], |ask| ask.image.put_length(DATA, 0)),
];

const SMALL_COLUMN: [Fault; 2] = [
    fault("14", "room for one record of two", [14, 0], |ask| ask.rooms.numbers = 1),
    fault("14", "no room", [14, 0], |ask| ask.rooms.numbers = 0),
];

/// What is judged of a head that is there, before the room, the indices and the data.
const OF_HEAD: [&[Fault]; 5] = [&UNSTORED, &EXTENDED, &LAYOUT, &UNKNOWN_TYPE, &SIZES];

pub fn cases() -> Vec<Case> {
    let heads = [heads_of(read(), &SMALL), heads_of(read_fields(), &SMALL_TABLE)];
    [heads.concat(), long_heads(), values(), columns(), columns_of_none()].concat()
}

/// Both calls answer the same numbers.
const NUMBERS: [u64; 12] = [0, 2, 6, 2, 93, 1, 96, 1, 9, 8, 3, 7];

fn read() -> Case {
    let rooms = Rooms { shorts: 9, longs: 6, ..Rooms::default() };
    let ask = Ask { reference: 1, rooms, ..Ask::on(Call::ReadVdata, vdata()) };
    let shorts = vec![22, 2, 0, 1, 16408, 4, 2, 1];
    let written = Written { shorts, longs: vec![86, 1, 89, 2], ..Written::default() };
    granted("two fields", ask, &NUMBERS, written)
}

fn read_fields() -> Case {
    let rooms = Rooms { fields: 3, ..Rooms::default() };
    let ask = Ask { reference: 1, rooms, ..Ask::on(Call::ReadFields, vdata()) };
    let fields = vec![
        Field { code: 22, size: 2, offset: 0, order: 1, name_offset: 86, name_length: 1 },
        Field { code: 16408, size: 4, offset: 2, order: 1, name_offset: 89, name_length: 2 },
    ];
    granted("two fields", ask, &NUMBERS, Written { fields, ..Written::default() })
}

/// The element, the layout, the types, the sizes, then the room.
fn heads_of(read: Case, small: &[Fault]) -> Vec<Case> {
    let read = [read];
    let small = over(small, &read);
    [head_faults(&read), over(&OF_HEAD.concat(), &small), small, read.into()].concat()
}

/// What can be wrong with a head, alone and two at once.
fn head_faults(read: &[Case]) -> Vec<Case> {
    let (layout, types, sizes) = (over(&LAYOUT, read), over(&UNKNOWN_TYPE, read), over(&SIZES, read));
    let bytes = [&layout[..], &types, &sizes].concat();
    [
        element_first(&ABSENT, &EXTENDED, read, &bytes),
        over(&UNKNOWN, read),
        over(&LAYOUT, &types),
        over(&UNKNOWN_TYPE, &sizes),
        bytes,
    ]
    .concat()
}

/// The head, the indices, the data.
fn values() -> Vec<Case> {
    let ask = Ask { reference: 1, indices: [1, 1, 0], ..Ask::on(Call::ReadValue, vdata()) };
    let read = [granted("the last value", ask, &[1, 0xffff_ffff_8000_0000], Written::default())];
    let indices = over(&INDICES, &read);
    let (extended, short) = (over(&EXTENDED_VALUES, &read), over(&SHORT_DATA, &read));
    let data = [over(&NO_DATA, &read), over(&UNSTORED_DATA, &read), extended.clone(), short.clone()].concat();
    let later = [&indices[..], &data].concat();
    [
        head_faults(&read),
        over(&OF_HEAD.concat(), &later),
        over(&ABSENT, &indices),
        over(&ABSENT, &data[1..]),
        over(&INDICES, &data),
        over(&UNSTORED_DATA, &[&extended[..], &short].concat()),
        over(&EXTENDED_VALUES, &short),
        later,
        read.into(),
    ]
    .concat()
}

/// The head, the indices, the data, then the room.
fn columns() -> Vec<Case> {
    let read = [column("the second field", [1, 0], &[1, 2], &[2, 0xffff_ffff_8000_0000])];
    let (indices, small) = (over(&INDICES[2..], &read), over(&SMALL_COLUMN, &read));
    let (extended, short) = (over(&EXTENDED_VALUES, &read), over(&SHORT_DATA, &read));
    let data = [over(&NO_DATA, &read), over(&UNSTORED_DATA, &read), extended.clone(), short.clone()].concat();
    let later = [&indices[..], &data, &small].concat();
    let of_data = [&NO_DATA[..], &UNSTORED_DATA, &EXTENDED_VALUES, &SHORT_DATA].concat();
    [
        head_faults(&read),
        over(&OF_HEAD.concat(), &later),
        over(&ABSENT, &indices),
        over(&ABSENT, &data[1..]),
        over(&ABSENT, &small),
        over(&INDICES[2..], &data),
        over(&INDICES[2..], &small),
        over(&UNSTORED_DATA, &[&extended[..], &short].concat()),
        over(&EXTENDED_VALUES, &short),
        over(&of_data, &small),
        later,
        read.into(),
        vec![column("the first field", [0, 0], &[1, 2], &[1, 0xffff_ffff_ffff_fffe]), by_field()],
    ]
    .concat()
}

/// A column with room for one record more.
fn column(of: &'static str, [field, component]: [u64; 2], values: &[u64], numbers: &[u64]) -> Case {
    let rooms = Rooms { numbers: numbers.len() + 1, ..Rooms::default() };
    let indices = [0, field, component];
    let ask = Ask { reference: 1, indices, rooms, ..Ask::on(Call::ReadColumn, vdata()) };
    granted(of, ask, values, Written { numbers: numbers.to_vec(), ..Written::default() })
}

/// The second component of the first of two fields of two records that stand by field; there is exactly enough room.
fn by_field() -> Case {
    let head = vdata_head(1, 2, 5, &[[16407, 4, 0, 2], [21, 1, 4, 1]]);
    let image = file(&[(HEAD_TAG, 1, head), (DATA_TAG, 1, hex("0100 0200 0300 fffe 07 08"))]);
    let rooms = Rooms { numbers: 2, ..Rooms::default() };
    let ask = Ask { reference: 1, indices: [0, 0, 1], rooms, ..Ask::on(Call::ReadColumn, image) };
    granted("two records by field", ask, &[2, 2], Written { numbers: vec![2, 0xfeff], ..Written::default() })
}

/// Without records the head and the indices are judged, but no data and no room.
fn columns_of_none() -> Vec<Case> {
    let mut read = column("no records", [1, 0], &[1, 0], &[]);
    read.steps[0].ask.image.put32_in(HEAD, RECORDS, 0);
    let not_met = [&NO_DATA[..], &UNSTORED_DATA, &EXTENDED_VALUES, &SHORT_DATA, &SMALL_COLUMN[1..]].concat();
    let unmet: Vec<Case> = not_met.iter().map(|fault| fault.unmet(&read)).collect();
    let faults = [&ABSENT[..], &OF_HEAD.concat(), &INDICES[2..]].concat();
    [over(&faults, &[read.clone()]), unmet, vec![read]].concat()
}

/// Two heads, by each call that reads a head.
fn long_heads() -> Vec<Case> {
    let numbers = [0, 1, 256, 256, 2630, 0, 2632, 0, 0, 0, 3, 0];
    let shorts = (0..256).flat_map(|index| [20, 1, index, 1]).collect();
    let longs = (0..256).flat_map(|index| [2118 + 2 * index, 0]).collect();
    let written = Written { shorts, longs, ..Written::default() };
    let read = granted("256 fields", long_ask(Call::ReadVdata), &numbers, written);
    let written = Written { fields: (0..256).map(long_field).collect(), ..Written::default() };
    let read_fields = granted("256 fields", long_ask(Call::ReadFields), &numbers, written);
    let value = granted("a value of 256", long_ask(Call::ReadValue), &[1, 7], Written::default());
    let written = Written { numbers: vec![7], ..Written::default() };
    let column = granted("a column of 256", long_ask(Call::ReadColumn), &[1, 1], written);
    let heads = [long_head(read, &SMALL[1..2]), long_head(read_fields, &SMALL_TABLE[1..])];
    [heads.concat(), long_head(value, &INDICES[..1]), long_head(column, &INDICES[3..4])].concat()
}

/// The element, the count, then the types and what is judged last.
fn long_head(read: Case, last: &[Fault]) -> Vec<Case> {
    let read = [read];
    let many = over(&MANY_FIELDS, &read);
    let later = [over(&UNKNOWN_TYPES, &read), over(last, &read)].concat();
    [over(&BAD_SECOND, &many), over(&MANY_FIELDS, &later), many, read.into()].concat()
}

fn long_ask(call: Call) -> Ask {
    let heads = [256, 257].map(long);
    let [first, second] = heads;
    let image = file(&[(HEAD_TAG, 1, first), (HEAD_TAG, 2, second), (DATA_TAG, 1, vec![7; 256])]);
    let rooms = Rooms { shorts: 1100, longs: 600, numbers: 2, fields: 300, ..Rooms::default() };
    Ask { reference: 1, indices: [0, 255, 0], rooms, ..Ask::on(call, image) }
}

/// A head of one record of so many fields without names, each a signed byte.
fn long(count: u16) -> Vec<u8> {
    let fields: Vec<[u16; 4]> = (0..count).map(|index| [20, 1, index, 1]).collect();
    vdata_head(0, 1, count, &fields)
}

fn long_field(index: u16) -> Field {
    let name_offset = 2118 + 2 * u32::from(index);
    Field { code: 20, size: 1, offset: index, order: 1, name_offset, name_length: 0 }
}

/// Head and data of 1962/1: two records of two fields, of 2 bytes with the high one first, and of 4 bytes with the low one first.
/// The head stands at 58, the data at 105.
fn vdata() -> Image {
    let columns = numbers16(&[22, 16408, 2, 4, 0, 2, 1, 1]);
    let start = [numbers16(&[0]), numbers32(&[2]), numbers16(&[6, 2]), columns].concat();
    let names = [text(b"x"), text(b"dx"), text(b"v"), text(b"c")].concat();
    let head = [start, names, numbers16(&[9, 8, 3, 7])].concat();
    let data = hex("0001 02000000 fffe 00000080");
    file(&[(HEAD_TAG, 1, head), (DATA_TAG, 1, data), (100, 1, b"hub".to_vec())])
}
