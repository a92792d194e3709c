//! What can be wrong with a record. A fault leaves all else in order, so that one rule alone is broken. Some faults of a Vdata
//! make sums come out right in 16 bits that are wrong in fact.

use crate::packing::{Record, MOST};
use crate::random::Random;
use crate::records::{Array, Dimension};
use crate::vset::{Group, Tail, Vdata, CODES, FIELD, LOW_FIRST, MOST_FIELDS};
use std::iter::repeat_with;

type FieldFault = fn(&mut Random, &mut Vdata);

/// Faults that can stand in a file as well.
const FIELD_FAULTS: [FieldFault; 14] = [
    interlace,
    version,
    order_zero,
    order_off,
    type_unknown,
    byte_order_turned,
    size_off,
    size_off_with_all_else,
    offset_off,
    record_size_off,
    size_past_16_bits,
    offset_past_16_bits,
    too_many_fields,
    many_records,
];

/// Faults that a file cannot have.
const CALL_FAULTS: [FieldFault; 6] =
    [entries_off, a_field_more, names_off, name_length_off, name_lengths_off, long_name_or_class];

/// The indices of the four numbers of a field.
const TYPE: usize = 0;
const SIZE: usize = 1;
const OFFSET: usize = 2;
const ORDER: usize = 3;

/// What a code has more in each byte order.
const BYTE_ORDERS: [u16; 2] = [0, LOW_FIRST];

/// Types of one byte, of both byte orders.
const ONE_BYTE: [u16; 4] = [4, 21, 4 + LOW_FIRST, 21 + LOW_FIRST];

/// One fault in so many is a count or a name past 16 bits.
const GREATEST_EVERY: usize = 40;

/// Breaks a rule of packing, or comes close to that.
pub fn spoil(random: &mut Random, record: &mut Record) {
    if random.once_in(2) {
        return spoil_fields(random, record);
    }
    match record {
        Record::NumberType(_) | Record::Dimension(_) => {}
        Record::Array(array) => spoil_array(random, array),
        Record::Group(group) => spoil_group(random, group),
        Record::Vdata(vdata) => random.pick(&CALL_FAULTS)(random, vdata),
    }
}

/// Breaks a rule that a record in a file can break as well, or comes close to that. Number types have none.
pub fn spoil_fields(random: &mut Random, record: &mut Record) {
    match record {
        Record::NumberType(_) => {}
        Record::Dimension(Dimension { interlace, .. }) => *interlace = random.pick(&[3, 3, 4, 256, 258, 65535]),
        Record::Array(array) => {
            array.sizes.clear();
            array.pairs.truncate(2);
        }
        Record::Group(group) => group.tail.version = other_version(random),
        Record::Vdata(vdata) => random.pick(&FIELD_FAULTS)(random, vdata),
    }
}

fn spoil_array(random: &mut Random, array: &mut Array) {
    if random.once_in(GREATEST_EVERY) {
        array.sizes.resize(MOST + random.between(1, 2), 7);
        array.pairs.resize(random.pick(&[2, 4, 2 * (array.sizes.len() + 1)]), 7);
        return;
    }
    match random.below(4) {
        0 => array.sizes.clear(),
        1 => array.sizes.push(random.u32()),
        2 => array.pairs.extend([random.u16(), random.u16()]),
        _ => array.pairs.truncate(array.pairs.len().saturating_sub(random.between(1, 2))),
    }
}

fn spoil_group(random: &mut Random, group: &mut Group) {
    match random.below(GREATEST_EVERY) {
        0 => group.members.resize(2 * (MOST + 1), 7),
        1 | 2 => long_text(random, &mut group.tail),
        _ => group.members.push(random.u16()),
    }
}

fn long_text(random: &mut Random, tail: &mut Tail) {
    let text = if random.once_in(2) { &mut tail.name } else { &mut tail.class };
    text.resize(MOST + random.between(1, 3), b'a');
}

fn other_version(random: &mut Random) -> u16 {
    random.pick(&[2, 2, 4, 4, 0, 1, 259, 0x0300, 65535])
}

// Vdatas.

fn interlace(random: &mut Random, vdata: &mut Vdata) {
    vdata.interlace = random.pick(&[2, 2, 3, 256, 65535]);
}

fn version(random: &mut Random, vdata: &mut Vdata) {
    vdata.tail.version = other_version(random);
}

/// A field without numbers and without bytes.
fn order_zero(random: &mut Random, vdata: &mut Vdata) {
    put(random, vdata, ORDER, |_, _| 0);
    for field in vdata.fields.chunks_exact_mut(FIELD).filter(|field| field[ORDER] == 0) {
        field[SIZE] = 0;
    }
    vdata.add_up();
}

fn order_off(random: &mut Random, vdata: &mut Vdata) {
    put(random, vdata, ORDER, off_by_one);
}

fn type_unknown(random: &mut Random, vdata: &mut Vdata) {
    put(random, vdata, TYPE, |random, _| {
        let mut codes = repeat_with(|| any_code(random));
        codes.find(|code| !CODES.contains(code)).expect("some code is unknown")
    });
}

/// A code far from all types, one that is a type but for a bit or two, or any.
fn any_code(random: &mut Random) -> u16 {
    let far = random.pick(&[0, 1, 2, 7, 8, 19, 26, 27, 42, 259]) + random.pick(&BYTE_ORDERS);
    let near = random.pick(&CODES) ^ random.pick(&[0x1000, 0x2000, 0x8000, 0xc000]);
    let any = random.u16();
    random.pick(&[far, far, near, near, any, u16::MAX])
}

/// The numbers are the same, but their bytes stand the other way. The head itself is good.
fn byte_order_turned(random: &mut Random, vdata: &mut Vdata) {
    put(random, vdata, TYPE, |_, code| code ^ LOW_FIRST);
}

fn size_off(random: &mut Random, vdata: &mut Vdata) {
    put(random, vdata, SIZE, off_by_one);
}

/// A size that is wrong, while offsets and record size agree with it.
fn size_off_with_all_else(random: &mut Random, vdata: &mut Vdata) {
    put(random, vdata, SIZE, off_by_one);
    vdata.add_up();
}

fn offset_off(random: &mut Random, vdata: &mut Vdata) {
    put(random, vdata, OFFSET, off_by_one);
}

fn record_size_off(random: &mut Random, vdata: &mut Vdata) {
    vdata.record_size = off_by_one(random, vdata.record_size);
}

/// A field whose size is right in 16 bits alone.
fn size_past_16_bits(random: &mut Random, vdata: &mut Vdata) {
    let (number_type, size) = random.pick(&[(22, 2), (25, 4), (5, 4), (6, 8)]);
    let order = (0x1_0000 / u32::from(size)) as u16 + random.below(3) as u16;
    vdata.add(number_type + random.pick(&BYTE_ORDERS), order.wrapping_mul(size), order);
    vdata.name_last(random);
}

/// Fields of which the last begins, or the record ends, past 16 bits.
fn offset_past_16_bits(random: &mut Random, vdata: &mut Vdata) {
    let first = random.between(40_000, 65_535) as u16;
    let rest = u16::MAX - first;
    for size in [first, rest + random.below(3) as u16, random.below(3) as u16 + 1] {
        vdata.add(random.pick(&ONE_BYTE), size, size);
        vdata.name_last(random);
    }
}

/// One field too many, or more, each of them good.
fn too_many_fields(random: &mut Random, vdata: &mut Vdata) {
    let count = random.pick(&[MOST_FIELDS, MOST_FIELDS + 1, MOST_FIELDS + 1, 300]);
    while vdata.field_count() < count {
        vdata.add(random.pick(&ONE_BYTE), 1, 1);
        vdata.name_last(random);
    }
}

/// More records than any file holds, also such that 32 bits would cut their size. The head itself is good.
fn many_records(random: &mut Random, vdata: &mut Vdata) {
    let any = random.u32();
    vdata.records = random.pick(&[1 << 16, 1 << 29, 1 << 30, 1 << 31, u32::MAX, any]);
}

fn entries_off(random: &mut Random, vdata: &mut Vdata) {
    match random.below(3) {
        0 => vdata.fields.truncate(vdata.fields.len().saturating_sub(1)),
        1 => vdata.fields.push(1),
        _ => vdata.fields.extend([random.pick(&ONE_BYTE), 1, vdata.record_size, 1]),
    }
}

/// A field that has a name, but no numbers.
fn a_field_more(random: &mut Random, vdata: &mut Vdata) {
    vdata.name_last(random);
}

fn names_off(random: &mut Random, vdata: &mut Vdata) {
    match random.below(2) {
        0 => vdata.names.push(b'a'),
        _ => vdata.names.truncate(vdata.names.len().saturating_sub(1)),
    }
}

fn name_length_off(random: &mut Random, vdata: &mut Vdata) {
    if !vdata.name_lengths.is_empty() {
        let index = random.below(vdata.name_lengths.len());
        vdata.name_lengths[index] = off_by_one(random, vdata.name_lengths[index]);
    }
}

fn name_lengths_off(_: &mut Random, vdata: &mut Vdata) {
    vdata.name_lengths.pop();
}

fn long_name_or_class(random: &mut Random, vdata: &mut Vdata) {
    if random.once_in(10) {
        long_text(random, &mut vdata.tail);
    }
}

/// Changes one of the four numbers of some field, if there is one.
fn put(random: &mut Random, vdata: &mut Vdata, number: usize, change: fn(&mut Random, u16) -> u16) {
    if vdata.field_count() > 0 {
        let index = FIELD * random.below(vdata.field_count()) + number;
        vdata.fields[index] = change(random, vdata.fields[index]);
    }
}

/// One more or less; at times two more, nothing, or as much as there can be.
fn off_by_one(random: &mut Random, number: u16) -> u16 {
    let (more, less) = (number.wrapping_add(1), number.wrapping_sub(1));
    random.pick(&[more, more, more, less, less, less, number.wrapping_add(2), 0, u16::MAX])
}
