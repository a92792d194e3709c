//! What the library answers to a call, and whether the memory lent to it is then as it must be.

use super::ask::{Ask, Rooms, Written};
use crate::cases::pieces::Image;
use crate::compare::edits::{call_library, first_difference};
use crate::compare::packing;
use crate::compare::vset::value_at;
use crate::editor::Request;
use crate::lent::{surround, Lent, Table};
use crate::packing::Record;
use crate::tally::Call;
use hdf4_sys::{self as library, Answer, Field};
use std::hint::black_box;
use std::ops::Range;

/// A longer image is not copied; only its ends are watched.
const LONG: usize = 1 << 20;
const WATCHED_END: usize = 4096;

/// What stands behind the file in a buffer that is not long.
const BEHIND: u8 = 0xee;

/// The numbers of the answer, and how the lent memory differs from what must stand there, in words.
pub type Outcome = (Vec<u64>, Option<String>);

/// The tables lent to a call.
struct Tables {
    bytes: Table<u8>,
    shorts: Table<u16>,
    longs: Table<u32>,
    numbers: Table<u64>,
    fields: Table<Field>,
}

/// Calls the library. Afterwards its tables, or its buffer, must hold what the paper says is written.
pub fn answer_to(ask: &Ask, written: &Written) -> Outcome {
    match (ask.request(), &ask.record) {
        (Some(request), _) => edit(ask, &request, &written.bytes),
        (None, Some(record)) => pack(record, ask.rooms, written),
        (None, None) => read(ask, written),
    }
}

fn read(ask: &Ask, written: &Written) -> Outcome {
    let (memory, other_memory) = (memory_of(&ask.image), memory_of(&ask.fallback));
    let (image, fallback) = (watch(&memory), watch(&other_memory));
    let mut tables = Tables::new(ask.rooms);
    let numbers = call(ask, image.image(), fallback.image(), &mut tables);
    let altered = !image.is_unchanged() || !fallback.is_unchanged();
    (numbers, altered.then(|| "altered the lent image".into()).or(tables.difference(written)))
}

/// An image with a few bytes around it, or a long one alone, and where it lies.
fn memory_of(image: &Image) -> (Vec<u8>, Range<usize>) {
    match image.len() {
        0..=LONG => surround(&image.bytes(), 0),
        length => (image.bytes(), 0..length),
    }
}

fn watch((memory, range): &(Vec<u8>, Range<usize>)) -> Lent<'_> {
    match range.len() {
        0..=LONG => Lent::watch_all(memory, range.clone()),
        _ => Lent::watch_ends(memory, range.clone()),
    }
}

fn call(ask: &Ask, image: &[u8], fallback: &[u8], tables: &mut Tables) -> Vec<u64> {
    let Ask { tag, reference, .. } = *ask;
    let Tables { bytes, shorts, longs, numbers, fields } = tables;
    let [_, field, component] = ask.indices;
    match ask.call {
        Call::Open => library::open(image).numbers(),
        Call::Find => library::find(image, tag, reference).numbers(),
        Call::List => library::list(image, longs.lend()).numbers(),
        Call::View => library::view(image, tag, reference).numbers(),
        Call::Size => library::size(image, tag, reference).numbers(),
        Call::Copy => library::copy(image, tag, reference, bytes.lend()).numbers(),
        Call::Choose => library::choose(image, fallback, tag, reference).numbers(),
        Call::ReadNumberType => library::read_number_type(image, reference).numbers(),
        Call::ReadDimension => library::read_dimension(image, tag, reference).numbers(),
        Call::ReadArray => library::read_array(image, reference, longs.lend(), shorts.lend()).numbers(),
        Call::ReadGroup => library::read_group(image, reference, shorts.lend()).numbers(),
        Call::ReadVdata => library::read_vdata(image, reference, shorts.lend(), longs.lend()).numbers(),
        Call::ReadFields => library::read_fields(image, reference, fields.lend()).numbers(),
        Call::ReadValue => value_at(image, reference, ask.indices).numbers(),
        Call::ReadColumn => library::read_column(image, reference, field, component, numbers.lend()).numbers(),
        Call::ListGroup => library::list_group(image, reference, shorts.lend()).numbers(),
        other => panic!("{other:?} reads no image"),
    }
}

fn pack(record: &Record, rooms: Rooms, written: &Written) -> Outcome {
    let (kept, mut tables) = (record.clone(), Tables::new(rooms));
    let numbers = packing::call_library(record, tables.bytes.lend()).numbers();
    let altered = *black_box(record) != kept;
    (numbers, altered.then(|| "altered what it was given".into()).or(tables.difference(written)))
}

/// An edit or an undo. The buffer must then hold the new file at its front, and behind it what was there.
fn edit(ask: &Ask, request: &Request, file: &[u8]) -> Outcome {
    let (mut memory, range) = buffer_of(ask);
    let mut expected = watched(&memory, &range).map(|part| (part.start, memory[part].to_vec()));
    expected[0].1[..file.len()].copy_from_slice(file);
    let data = Lent::watch_ends(request.data(), 0..request.data().len());
    let numbers = call_library(&mut memory[range.clone()], ask.length(), request).numbers();
    let wrong = expected.iter().find_map(|(start, bytes)| {
        let difference = first_difference(&memory[*start..start + bytes.len()], bytes)?;
        Some(format!("counted from {} of the buffer, {difference}", *start as i64 - range.start as i64))
    });
    let altered = !data.is_unchanged();
    (numbers, altered.then(|| "altered the data".into()).or(wrong))
}

/// A buffer with the file at its front, and where it lies. Behind the file stand other bytes, in a long buffer zeros.
fn buffer_of(ask: &Ask) -> (Vec<u8>, Range<usize>) {
    let mut buffer = ask.image.clone();
    match ask.capacity() {
        0..=LONG => buffer.append(&vec![BEHIND; ask.behind]),
        capacity => buffer.lengthen(capacity),
    }
    memory_of(&buffer)
}

/// The parts of a memory that are compared: from the buffer on and what is before it, or both ends of a long one.
fn watched(memory: &[u8], buffer: &Range<usize>) -> [Range<usize>; 2] {
    let end = memory.len();
    match buffer.len() {
        0..=LONG => [buffer.start..end, 0..buffer.start],
        _ => [0..WATCHED_END, end - WATCHED_END..end],
    }
}

impl Tables {
    fn new(rooms: Rooms) -> Tables {
        Tables {
            bytes: Table::new(rooms.bytes),
            shorts: Table::new(rooms.shorts),
            longs: Table::new(rooms.longs),
            numbers: Table::new(rooms.numbers),
            fields: Table::new(rooms.fields),
        }
    }

    /// How one of the tables differs from what must stand in it, in words.
    fn difference(&self, written: &Written) -> Option<String> {
        let bytes = || self.bytes.difference(&written.bytes);
        let shorts = || self.shorts.difference(&written.shorts);
        let longs = || self.longs.difference(&written.longs);
        let numbers = || self.numbers.difference(&written.numbers);
        let fields = || self.fields.difference(&written.fields);
        bytes().or_else(shorts).or_else(longs).or_else(numbers).or_else(fields)
    }
}
