//! A Vdata whose values fill an image of the greatest length, and a group at the very end of it.

use super::MOST;
use crate::arguments;
use crate::compare::{compare_huge_records, Outcome};
use crate::editor::slot;
use crate::packing::{bytes_of, layout, Record};
use crate::random::Random;
use crate::tally::Tally;
use crate::vset::{Group, Vdata, DATA, GROUP, HEAD};

const DIRECTORY: usize = 4;
const FRONT: usize = 46;
const RECORD_SIZE: usize = 12;
/// Type, size, offset and order of each field. The low byte of the first one's numbers stands first.
const FIELDS: [u16; 8] = [16390, 8, 0, 1, 22, 4, 8, 2];

/// Compares values by record and by field, of as many records as there is room for, and of more. The memory holds zeros but for
/// its first four bytes, before and afterwards.
pub fn compare_long_data(memory: &mut [u8], random: &mut Random, tally: &mut Tally) -> Outcome {
    for interlace in [0, 1] {
        for more in [0, 0, 1, u32::MAX] {
            let parts = parts(random, interlace, more);
            put(memory, &parts);
            let outcome = compare_huge_records(&memory[..MOST], random, tally);
            parts.iter().for_each(|(place, bytes)| memory[*place..*place + bytes.len()].fill(0));
            outcome?;
        }
    }
    Ok(())
}

/// The parts of the image that are not zeros, each with its place: directory, head, group and some values.
fn parts(random: &mut Random, interlace: u16, more: u32) -> Vec<(usize, Vec<u8>)> {
    let group = Group { members: vec![DATA, 1, HEAD, 1], tail: arguments::tail(random) };
    let group = bytes_of(&layout(&Record::Group(group)));
    let end = MOST - group.len();
    let mut vdata = Vdata {
        interlace,
        records: 0,
        record_size: RECORD_SIZE as u16,
        fields: FIELDS.to_vec(),
        name_lengths: vec![1, 2],
        names: b"abc".to_vec(),
        tail: arguments::tail(random),
    };
    let start = FRONT + bytes_of(&layout(&Record::Vdata(vdata.clone()))).len();
    let records = (end - start) / RECORD_SIZE;
    vdata.records = (records as u32).saturating_add(more);
    let head = bytes_of(&layout(&Record::Vdata(vdata)));
    let directory = [
        vec![0, 3, 0, 0, 0, 0],
        slot(HEAD, 1, FRONT, head.len()),
        slot(DATA, 1, start, end - start),
        slot(GROUP, 1, end, group.len()),
    ];
    let first_field_end = start + 8 * records;
    let last_record = start + RECORD_SIZE * (records - 1);
    vec![
        (DIRECTORY, directory.concat()),
        (FRONT, head),
        (start, random.bytes(RECORD_SIZE)),
        (first_field_end - 8, random.bytes(8)),
        (last_record, random.bytes(RECORD_SIZE)),
        (end, group),
    ]
}

fn put(memory: &mut [u8], parts: &[(usize, Vec<u8>)]) {
    for (place, bytes) in parts {
        memory[*place..*place + bytes.len()].copy_from_slice(bytes);
    }
}
