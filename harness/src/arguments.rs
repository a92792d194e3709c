//! Random records, as the calls that pack them take them: good ones, and ones that break a rule.

mod faults;

pub use faults::{spoil, spoil_fields};

use crate::packing::{Record, MOST};
use crate::random::Random;
use crate::records::{Array, Dimension, NumberType, ARRAY, DIMENSIONS, NUMBER_TYPE};
use crate::vset::{size_of, Field, Group, Tail, Vdata, CODES, FIELD, GROUP, HEAD, MOST_FIELDS, VERSION};

/// One record in so many has a rank, a name or as many members as 16 bits can count.
const GREATEST_EVERY: usize = 800;

/// A record that breaks no rule.
pub fn record(random: &mut Random) -> Record {
    match random.below(20) {
        0 | 1 => Record::NumberType(number_type(random)),
        2..=4 => Record::Dimension(dimension(random)),
        5..=8 => Record::Array(array(random)),
        9..=12 => Record::Group(group(random)),
        _ => Record::Vdata(vdata(random)),
    }
}

/// The tag of an element that holds such a record.
pub fn tag(random: &mut Random, record: &Record) -> u16 {
    match record {
        Record::NumberType(_) => NUMBER_TYPE,
        Record::Dimension(_) => random.pick(&DIMENSIONS),
        Record::Array(_) => ARRAY,
        Record::Group(_) => GROUP,
        Record::Vdata(_) => HEAD,
    }
}

fn number_type(random: &mut Random) -> NumberType {
    let [version, kind, width, class] = random.u32().to_be_bytes();
    NumberType { version, kind, width, class }
}

fn dimension(random: &mut Random) -> Dimension {
    Dimension {
        x: random.u32(),
        y: random.u32(),
        type_tag: random.u16(),
        type_ref: random.u16(),
        elements: random.u16(),
        interlace: random.below(3) as u16,
        compression_tag: random.u16(),
        compression_ref: random.u16(),
    }
}

fn array(random: &mut Random) -> Array {
    let rank = match random.below(GREATEST_EVERY) {
        0 => MOST - random.below(2),
        1..=20 => random.between(100, 300),
        _ => random.between(1, 6),
    };
    let pairs = (0..2 * (rank + 1)).map(|_| random.u16()).collect();
    Array { sizes: (0..rank).map(|_| random.u32()).collect(), pairs }
}

fn group(random: &mut Random) -> Group {
    let count = match random.below(GREATEST_EVERY) {
        0 => MOST - random.below(2),
        1..=20 => random.between(100, 300),
        _ => random.below(6),
    };
    Group { members: (0..2 * count).map(|_| random.u16()).collect(), tail: tail(random) }
}

pub fn tail(random: &mut Random) -> Tail {
    Tail {
        name: name(random),
        class: name(random),
        extension_tag: random.u16(),
        extension_ref: random.u16(),
        version: VERSION,
        more: random.u16(),
    }
}

/// Any bytes, at times none, seldom as many as a name can have.
fn name(random: &mut Random) -> Vec<u8> {
    let length = match random.below(GREATEST_EVERY) {
        0 => MOST - random.below(2),
        1..=20 => random.between(200, 300),
        _ => random.below(8),
    };
    random.bytes(length)
}

/// A head with few fields and records, its types of either byte order; seldom with as many fields as a head can have.
pub fn vdata(random: &mut Random) -> Vdata {
    let count = match random.below(150) {
        0 => MOST_FIELDS - random.below(2),
        1..=4 => random.between(6, 40),
        _ => random.below(6),
    };
    let mut vdata = Vdata {
        interlace: random.below(2) as u16,
        records: random.pick(&[0, 1, 1, 2, 2, 3, 4]),
        record_size: 0,
        fields: Vec::new(),
        name_lengths: Vec::new(),
        names: Vec::new(),
        tail: tail(random),
    };
    for _ in 0..count {
        let number_type = random.pick(&CODES);
        let size = size_of(number_type).expect("a known type");
        let order = order(random, (u16::MAX - vdata.record_size) / size);
        if order > 0 {
            vdata.add(number_type, order * size, order);
            vdata.name_last(random);
        }
    }
    vdata
}

/// How many numbers a field has: few; seldom as many as the record has room for, or almost.
fn order(random: &mut Random, most: u16) -> u16 {
    let order = match random.below(300) {
        0 => most.saturating_sub(random.below(2) as u16),
        1..=8 => random.between(1, 60) as u16,
        _ => random.between(1, 3) as u16,
    };
    order.min(most)
}

impl Vdata {
    /// Adds a field behind the others, its offset and the record size as they must be in 16 bits.
    fn add(&mut self, number_type: u16, size: u16, order: u16) {
        self.fields.extend([number_type, size, self.record_size, order]);
        self.record_size = self.record_size.wrapping_add(size);
    }

    /// Gives the last field a name.
    fn name_last(&mut self, random: &mut Random) {
        let length = random.below(6);
        self.name_lengths.push(length as u16);
        self.names.extend(random.bytes(length));
    }

    /// Makes the offsets and the record size what they must be in 16 bits.
    fn add_up(&mut self) {
        let fields: Vec<Field> = self.field_list().collect();
        self.fields.clear();
        self.record_size = 0;
        for Field { number_type, size, order, .. } in fields {
            self.add(number_type, size, order);
        }
    }

    fn field_count(&self) -> usize {
        self.fields.len() / FIELD
    }
}
