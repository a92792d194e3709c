//! The packing of records.

use super::edits::first_difference;
use super::records::{answer, cause_of};
use super::{Difference, Outcome};
use crate::lent::Table;
use crate::packing::{self, Record};
use crate::random::Random;
use crate::records::Dimension;
use crate::tally::{Call, Tally};
use crate::vset::{Group, Tail, Vdata};
use hdf4_sys::{self as library, Answer, PackAnswer};
use std::hint::black_box;

const MOST_SHOWN: usize = 500;

/// Packs a record, good or bad, to rooms of several lengths. Answers its bytes, if it has any.
pub fn compare(record: &Record, random: &mut Random, tally: &mut Tally) -> Result<Option<Vec<u8>>, Difference> {
    let bytes = packing::pack(record, usize::MAX).ok().map(|(bytes, _)| bytes);
    let needed = bytes.as_ref().map_or(random.below(30), Vec::len);
    let mut rooms = vec![needed, needed + random.between(1, 9)];
    if needed > 0 {
        rooms.extend([needed - 1, random.below(needed)]);
    }
    for room in rooms {
        compare_in(record, room, tally)?;
    }
    Ok(bytes)
}

/// Packs a record whose bytes are known.
pub fn compare_with(record: &Record, bytes: &[u8], random: &mut Random, tally: &mut Tally) -> Outcome {
    let difference = match compare(record, random, tally)? {
        Some(packed) => first_difference(&packed, bytes),
        None => Some("refused".into()),
    };
    match difference {
        Some(difference) => Err(differ(record, bytes.len(), difference, "its bytes in the image".into())),
        None => Ok(()),
    }
}

fn compare_in(record: &Record, room: usize, tally: &mut Tally) -> Outcome {
    let (kept, mut out) = (record.clone(), Table::new(room));
    let library = call_library(record, out.lend());
    let packing = packing::pack(record, room);
    let expected = answer(&packing, |bytes| packed(bytes));
    if library != expected {
        return Err(differ(record, room, format!("{library:?}"), format!("{expected:?}")));
    }
    if let Some(difference) = out.difference(packing.as_ref().map_or(&[], |(bytes, _)| bytes)) {
        return Err(differ(record, room, difference, "other bytes in the room".into()));
    }
    if *black_box(record) != kept {
        return Err(differ(record, room, "altered what it was given".into(), "left it as it was".into()));
    }
    tally.count(record.call(), expected.number());
    tally.count_cause(record.call(), cause_of(&packing));
    if let (Record::Vdata(vdata), Ok(_)) = (record, &packing) {
        tally.count_types(Call::PackVdata, vdata);
    }
    Ok(())
}

/// What the library answers to a record that it is to pack.
pub fn call_library(record: &Record, out: &mut [u8]) -> PackAnswer {
    match record {
        Record::NumberType(n) => library::pack_number_type(n.version, n.kind, n.width, n.class, out),
        Record::Dimension(dimension) => pack_dimension(dimension, out),
        Record::Array(array) => library::pack_array(&array.sizes, &array.pairs, out),
        Record::Group(group) => pack_group(group, out),
        Record::Vdata(vdata) => pack_vdata(vdata, out),
    }
}

fn pack_dimension(dimension: &Dimension, out: &mut [u8]) -> PackAnswer {
    let Dimension { x, y, type_tag, type_ref, elements, interlace, compression_tag, compression_ref } = *dimension;
    library::pack_dimension(x, y, type_tag, type_ref, elements, interlace, compression_tag, compression_ref, out)
}

fn pack_group(Group { members, tail }: &Group, out: &mut [u8]) -> PackAnswer {
    let Tail { name, class, extension_tag, extension_ref, version, more } = tail;
    library::pack_group(members, name, class, *extension_tag, *extension_ref, *version, *more, out)
}

fn pack_vdata(vdata: &Vdata, out: &mut [u8]) -> PackAnswer {
    let tail = &vdata.tail;
    library::pack_vdata(
        vdata.interlace,
        vdata.records,
        vdata.record_size,
        &vdata.fields,
        &vdata.name_lengths,
        &vdata.names,
        &tail.name,
        &tail.class,
        tail.extension_tag,
        tail.extension_ref,
        tail.version,
        tail.more,
        out,
    )
}

pub fn packed(bytes: &[u8]) -> PackAnswer {
    PackAnswer { length: bytes.len() as u64, ..PackAnswer::default() }
}

fn differ(record: &Record, room: usize, library: String, expected: String) -> Difference {
    let arguments = format!("[{}, room {room}]", shown(record));
    Difference { call: record.call(), arguments, library, judge: "reader", expected }
}

/// A record in words. Of a long one only the beginning: the file or the seed tells how to make it again.
pub fn shown(record: &Record) -> String {
    let mut words = format!("{record:?}");
    if words.len() > MOST_SHOWN {
        words.truncate(MOST_SHOWN);
        words += "..";
    }
    words
}

impl Record {
    fn call(&self) -> Call {
        match self {
            Record::NumberType(_) => Call::PackNumberType,
            Record::Dimension(_) => Call::PackDimension,
            Record::Array(_) => Call::PackArray,
            Record::Group(_) => Call::PackGroup,
            Record::Vdata(_) => Call::PackVdata,
        }
    }
}
