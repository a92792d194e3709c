//! The packing of records. No image is opened, and all places are 0.

use super::ask::{Ask, Rooms, Written};
use super::types::unknown_types;
use super::{fault, granted, over, Case, Fault};
use crate::packing::Record;
use crate::records::{Array, Dimension, NumberType};
use crate::tally::Call;
use crate::vset::{Group, Tail, Vdata};

/// One more than 16 bits hold.
const TOO_MANY: usize = 65_536;

/// Room for all that is packed here, if it were granted.
const ROOMY: usize = 600_000;

const SMALL: [Fault; 1] = [fault("14", "one byte too little room", [14, 0], |ask| ask.rooms.bytes -= 1)];

const NO_ROOM: [Fault; 1] = [fault("14", "no room", [14, 0], |ask| ask.rooms.bytes = 0)];

const BAD_DIMENSION: [Fault; 1] = [fault("15", "interlace 3", [15, 0], |ask| ask.dimension().interlace = 3)];

const BAD_ARRAY: [Fault; 4] = [
    fault("15 rank", "rank 0", [15, 0], |ask| *ask.array() = Array { sizes: vec![], pairs: vec![106, 1] }),
    fault("15 rank", "rank 65,536", [15, 0], |ask| {
        *ask.array() = Array { sizes: vec![1; TOO_MANY], pairs: vec![106; 2 * TOO_MANY + 2] };
    }),
    fault("15 pairs", "two pairs for two sizes", [15, 0], |ask| ask.array().pairs.truncate(4)),
    fault("15 pairs", "half a pair too many", [15, 0], |ask| ask.array().pairs.push(106)),
];

const BAD_GROUP: [Fault; 5] = [
    fault("15 members", "half a member", [15, 0], |ask| ask.group().members.truncate(3)),
    fault("15 members", "65,536 members", [15, 0], |ask| ask.group().members = vec![100; 2 * TOO_MANY]),
    fault("15 name", "a name of 65,536 bytes", [15, 0], |ask| ask.group().tail.name = vec![b'n'; TOO_MANY]),
    fault("15 class", "a class of 65,536 bytes", [15, 0], |ask| ask.group().tail.class = vec![b'c'; TOO_MANY]),
    fault("15 version", "version 4", [15, 0], |ask| ask.group().tail.version = 4),
];

/// Layout, interlace, count and orders.
const LAYOUT: [Fault; 8] = [
    fault("15 entries", "seven numbers for two fields", [15, 0], |ask| ask.vdata().fields.truncate(7)),
    fault("15 names", "one byte too few for the names", [15, 0], |ask| ask.vdata().names.truncate(2)),
    fault("15 name", "a name of 65,536 bytes", [15, 0], |ask| ask.vdata().tail.name = vec![b'n'; TOO_MANY]),
    fault("15 class", "a class of 65,536 bytes", [15, 0], |ask| ask.vdata().tail.class = vec![b'c'; TOO_MANY]),
    fault("15 version", "version 4", [15, 0], |ask| ask.vdata().tail.version = 4),
    fault("15 interlace", "interlace 2", [15, 0], |ask| ask.vdata().interlace = 2),
    fault("15 count", "257 fields", [15, 0], |ask| {
        let vdata = ask.vdata();
        vdata.fields.extend((6..261).flat_map(|offset| [20, 1, offset, 1]));
        vdata.name_lengths.resize(257, 0);
        vdata.record_size = 261;
    }),
    fault("15 order", "an order of 0", [15, 0], |ask| ask.vdata().fields[3] = 0),
];

const UNKNOWN_TYPE: [Fault; 18] = unknown_types(0);

const SIZES: [Fault; 4] = [
    fault("15 size", "a wrong size", [15, 0], |ask| ask.vdata().fields[1] = 4),
    fault("15 size low first", "a wrong second size", [15, 0], |ask| ask.vdata().fields[5] = 2),
    fault("15 offset", "a wrong offset", [15, 0], |ask| ask.vdata().fields[6] = 4),
    fault("15 record size", "a wrong record size", [15, 0], |ask| ask.vdata().record_size = 8),
];

pub fn cases() -> Vec<Case> {
    [number_types(), dimensions(), arrays(), groups(), vdatas()].concat()
}

fn number_types() -> Vec<Case> {
    let record = NumberType { version: 1, kind: 24, width: 32, class: 1 };
    in_order(Call::PackNumberType, Record::NumberType(record), &[1, 24, 32, 1], &[])
}

fn dimensions() -> Vec<Case> {
    let record = Dimension {
        x: 12,
        y: 10,
        type_tag: 106,
        type_ref: 2,
        elements: 1,
        interlace: 2,
        compression_tag: 11,
        compression_ref: 7,
    };
    let bytes = [0, 0, 0, 12, 0, 0, 0, 10, 0, 106, 0, 2, 0, 1, 0, 2, 0, 11, 0, 7];
    in_order(Call::PackDimension, Record::Dimension(record), &bytes, &[&BAD_DIMENSION])
}

fn arrays() -> Vec<Case> {
    let record = Array { sizes: vec![3, 4], pairs: vec![106, 1, 106, 2, 106, 3] };
    let bytes = [0, 2, 0, 0, 0, 3, 0, 0, 0, 4, 0, 106, 0, 1, 0, 106, 0, 2, 0, 106, 0, 3];
    in_order(Call::PackArray, Record::Array(record), &bytes, &[&BAD_ARRAY])
}

fn groups() -> Vec<Case> {
    let record = Group { members: vec![1962, 5, 1965, 2], tail: tail(b"yard", b"rail") };
    let bytes = b"\x00\x02\x07\xaa\x07\xad\x00\x05\x00\x02\x00\x04yard\x00\x04rail\x00\x09\x00\x08\x00\x03\x00\x07";
    in_order(Call::PackGroup, Record::Group(record), bytes, &[&BAD_GROUP])
}

fn vdatas() -> Vec<Case> {
    let record = Vdata {
        interlace: 0,
        records: 2,
        record_size: 6,
        fields: vec![22, 2, 0, 1, 16408, 4, 2, 1],
        name_lengths: vec![1, 2],
        names: b"xdx".to_vec(),
        tail: tail(b"v", b"c"),
    };
    let bytes = b"\x00\x00\x00\x00\x00\x02\x00\x06\x00\x02\
        \x00\x16\x40\x18\x00\x02\x00\x04\x00\x00\x00\x02\x00\x01\x00\x01\
        \x00\x01x\x00\x02dx\x00\x01v\x00\x01c\x00\x09\x00\x08\x00\x03\x00\x07";
    in_order(Call::PackVdata, Record::Vdata(record), bytes, &[&LAYOUT, &UNKNOWN_TYPE, &SIZES])
}

/// A record that is packed to its bytes: its faults are judged in this order, then the room.
fn in_order(call: Call, record: Record, bytes: &[u8], faults: &[&[Fault]]) -> Vec<Case> {
    let pack = |of, room| {
        let rooms = Rooms { bytes: room, ..Rooms::default() };
        let ask = Ask { record: Some(record.clone()), rooms, ..Ask::new(call) };
        [granted(of, ask, &[bytes.len() as u64], Written::bytes(bytes))]
    };
    let exact = pack("a record that just fits", bytes.len());
    let roomy = pack("a record with much room", ROOMY);
    let no_room = over(&NO_ROOM, &roomy);
    let mut cases = [over(&SMALL, &exact), exact.into()].concat();
    for (index, first) in faults.iter().enumerate() {
        let next = faults.get(index + 1).map_or(Vec::new(), |next| over(next, &roomy));
        cases.extend([over(first, &roomy), over(first, &next), over(first, &no_room)].concat());
    }
    [cases, no_room, roomy.into()].concat()
}

fn tail(name: &[u8], class: &[u8]) -> Tail {
    Tail { name: name.to_vec(), class: class.to_vec(), extension_tag: 9, extension_ref: 8, version: 3, more: 7 }
}
