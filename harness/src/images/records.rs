//! Files with records: number types, dimensions, arrays, Vgroups and Vdatas with their values, whole or broken in one or more
//! ways; and files of groups within groups.

mod faults;
mod groups;

use super::parts::{self, Part};
use crate::arguments;
use crate::packing::{bytes_of, layout, Record};
use crate::random::Random;
use crate::vset::{type_of, Vdata, DATA};

/// Longer data are left out: such a Vdata has too few of them.
const MOST_DATA: u64 = 1 << 18;

/// Bits of numbers, from the high ones on, as many as a type has: the least and the greatest, signs, infinities, and NaNs of
/// all kinds.
const TELLING: [u64; 19] = [
    0,
    u64::MAX,
    0x8000_0000_0000_0000,
    0x8080_8080_8080_8080,
    0x7fff_ffff_ffff_ffff,
    0x0000_0000_0000_0001,
    0x0000_0001_0000_0001,
    0x0001_0001_0001_0001,
    0x7f80_0000_0000_0000,
    0xff80_0000_0000_0000,
    0x7f80_0001_7f80_0001,
    0xff80_0001_0000_0000,
    0x7fc0_0000_0000_0000,
    0xffc1_2345_0000_0000,
    0x7ff0_0000_0000_0000,
    0xfff0_0000_0000_0000,
    0x7ff0_0000_0000_0001,
    0xfff8_0000_0000_0000,
    0x7ff8_dead_beef_cafe,
];

pub fn image(random: &mut Random) -> Vec<u8> {
    let parts = match random.below(10) {
        0..=2 => groups::parts(random),
        _ => (0..random.between(1, 3)).flat_map(|index| record(random, index as u16)).collect(),
    };
    let mut image = parts::lay(random, parts);
    if random.once_in(25) {
        let place = random.below(image.len());
        image[place] ^= 1 << random.below(8);
    }
    image
}

/// A file with one record, as it was packed. Behind a Vgroup or a Vdata head there may be more bytes.
pub fn image_of(random: &mut Random, record: &Record, mut bytes: Vec<u8>) -> Vec<u8> {
    if matches!(record, Record::Group(_) | Record::Vdata(_)) && random.once_in(2) {
        let more = random.between(1, 5);
        bytes.extend(random.bytes(more));
    }
    let (tag, reference) = (arguments::tag(random, record), random.below(3) as u16);
    parts::lay(random, vec![Part::new(tag, reference, bytes)])
}

/// A record, and the data of a Vdata with it.
fn record(random: &mut Random, reference: u16) -> Vec<Part> {
    let mut record = arguments::record(random);
    let faults = random.pick(&[0, 0, 0, 1, 1, 1, 1, 2, 3]);
    let data = match &record {
        Record::Vdata(vdata) => Some(data_of(random, vdata, reference)),
        _ => None,
    };
    for _ in 0..random.below(faults + 1) {
        arguments::spoil_fields(random, &mut record);
    }
    let mut pieces = layout(&record);
    for _ in 0..random.below(faults + 1) {
        faults::spoil_pieces(random, &mut pieces);
    }
    let tag = arguments::tag(random, &record);
    let mut parts = vec![Part::new(tag, reference, bytes_of(&pieces))];
    parts.extend(data);
    for _ in 0..random.below(faults + 1) {
        faults::spoil_parts(random, &mut parts);
    }
    parts
}

/// The values of a Vdata one after the other, at times with bytes behind them.
fn data_of(random: &mut Random, vdata: &Vdata, reference: u16) -> Part {
    let size = u64::from(vdata.records) * u64::from(vdata.record_size);
    let mut bytes = Vec::new();
    if size <= MOST_DATA {
        match vdata.interlace {
            0 => (0..vdata.records).for_each(|_| add_record(random, vdata, &mut bytes)),
            _ => add_fields(random, vdata, &mut bytes),
        }
    }
    if random.once_in(4) {
        let more = random.between(1, 9);
        bytes.extend(random.bytes(more));
    }
    Part::new(DATA, reference, bytes)
}

fn add_record(random: &mut Random, vdata: &Vdata, bytes: &mut Vec<u8>) {
    for field in vdata.field_list() {
        (0..field.order).for_each(|_| add_value(random, field.number_type, bytes));
    }
}

/// All records of a field, then those of the next.
fn add_fields(random: &mut Random, vdata: &Vdata, bytes: &mut Vec<u8>) {
    for field in vdata.field_list() {
        let count = vdata.records * u32::from(field.order);
        (0..count).for_each(|_| add_value(random, field.number_type, bytes));
    }
}

/// Any bits, or telling ones, in the byte order of the type.
fn add_value(random: &mut Random, number_type: u16, bytes: &mut Vec<u8>) {
    let known = type_of(number_type).expect("a type of a good record");
    let any = random.next();
    let bits = if random.once_in(2) { any } else { random.pick(&TELLING) };
    let mut number = bits.to_be_bytes();
    let number = &mut number[..known.size.into()];
    if known.is_low_first {
        number.reverse();
    }
    bytes.extend(&*number);
}
