//! What the reader, the editor or the packer answers to a call.

use super::ask::{Answer, Ask, Rooms, Written};
use crate::compare::directory::{expected_find, expected_list, expected_open};
use crate::compare::edits::expected;
use crate::compare::packing::packed;
use crate::compare::records::{answer, array_read, dimension_read, number_type_read};
use crate::compare::storage::{self as compared, chosen, copied, sized, viewed};
use crate::compare::vset::{column_read, field_names, fields_of, group_listed, group_read, value_read, vdata_read};
use crate::editor::{self, Request};
use crate::packing;
use crate::reader;
use crate::records;
use crate::storage::{self, Opening};
use crate::tally::Call;
use crate::vset;
use hdf4_sys as library;

pub fn answer_to(ask: &Ask) -> Answer {
    match (ask.request(), &ask.record) {
        (Some(request), _) => edit(ask, &request),
        (None, Some(record)) => {
            let packing = packing::pack(record, ask.rooms.bytes);
            let bytes = packing.as_ref().map_or(Vec::new(), |(bytes, _)| bytes.clone());
            with(answer(&packing, |bytes| packed(bytes)), Written { bytes, ..Written::default() })
        }
        (None, None) => {
            let image = ask.image.bytes();
            read(ask, &image, &reader::open(&image))
        }
    }
}

fn edit(ask: &Ask, request: &Request) -> Answer {
    let mut buffer = ask.image.clone();
    buffer.lengthen(ask.capacity());
    let made = editor::call(&buffer.bytes(), ask.length(), request);
    let length = made.as_ref().map(|file| file.len() as u64).map_err(|refused| *refused);
    with(expected(length), Written { bytes: made.unwrap_or_default(), ..Written::default() })
}

/// A call that reads an image.
fn read(ask: &Ask, image: &[u8], opening: &Opening) -> Answer {
    let Ask { tag, reference, rooms, .. } = *ask;
    match ask.call {
        Call::Open => only(expected_open(opening)),
        Call::Find => only(expected_find(opening, tag, reference)),
        Call::List => {
            let (listed, longs) = expected_list(opening, rooms.longs);
            with(listed, Written { longs, ..Written::default() })
        }
        Call::View => only(compared::answer(storage::view(opening, tag, reference), viewed)),
        Call::Size => only(compared::answer(storage::size(image, opening, tag, reference), sized)),
        Call::Copy => copy(image, opening, (tag, reference), rooms.bytes),
        Call::Choose => {
            let fallback = reader::open(&ask.fallback.bytes());
            only(compared::answer(storage::choose(opening, &fallback, tag, reference), chosen))
        }
        Call::ReadNumberType => only(answer(&records::read_number_type(image, opening, reference), number_type_read)),
        Call::ReadDimension => only(answer(&records::read_dimension(image, opening, tag, reference), dimension_read)),
        Call::ReadValue => only(answer(&vset::read_value(image, opening, reference, ask.indices), value_read)),
        Call::ReadColumn => {
            let [_, field, component] = ask.indices;
            let reading = vset::read_column(image, opening, reference, [field, component], rooms.numbers);
            let numbers = answer(&reading, column_read);
            let bits = reading.map_or(Vec::new(), |(column, _)| column.bits);
            with(numbers, Written { numbers: bits, ..Written::default() })
        }
        _ => read_lists(ask.call, image, opening, reference, rooms),
    }
}

fn copy(image: &[u8], opening: &Opening, (tag, reference): (u16, u16), room: usize) -> Answer {
    let reading = storage::copy(image, opening, tag, reference, room);
    let numbers = copied(&reading);
    let bytes = reading.map_or(Vec::new(), |(bytes, _)| bytes);
    with(numbers, Written { bytes, ..Written::default() })
}

/// A call that writes lists to lent tables.
fn read_lists(call: Call, image: &[u8], opening: &Opening, reference: u16, rooms: Rooms) -> Answer {
    let mut written = Written::default();
    match call {
        Call::ReadArray => {
            let reading = records::read_array(image, opening, reference, [rooms.longs, rooms.shorts]);
            let numbers = answer(&reading, array_read);
            if let Ok((found, _)) = reading {
                (written.longs, written.shorts) = (found.record.sizes, found.record.pairs);
            }
            with(numbers, written)
        }
        Call::ReadGroup => {
            let reading = vset::read_group(image, opening, reference, rooms.shorts);
            let numbers = answer(&reading, group_read);
            written.shorts = reading.map_or(Vec::new(), |(found, _)| found.record.members);
            with(numbers, written)
        }
        Call::ListGroup => {
            let reading = vset::list_group(image, opening, reference, rooms.shorts);
            let numbers = answer(&reading, |pairs| group_listed(pairs));
            written.shorts = reading.map_or(Vec::new(), |(pairs, _)| pairs);
            with(numbers, written)
        }
        _ => read_head(call, image, opening, reference, rooms),
    }
}

/// The head of a Vdata, by one call or the other.
fn read_head(call: Call, image: &[u8], opening: &Opening, reference: u16, rooms: Rooms) -> Answer {
    let in_one = call == Call::ReadFields;
    let reading = match in_one {
        true => vset::read_fields(image, opening, reference, rooms.fields),
        false => vset::read_vdata(image, opening, reference, [rooms.shorts, rooms.longs]),
    };
    let numbers = answer(&reading, vdata_read);
    let mut written = Written::default();
    match reading {
        Ok((found, _)) if in_one => written.fields = fields_of(&found),
        Ok((found, _)) => (written.longs, written.shorts) = (field_names(&found), found.record.fields),
        Err(_) => {}
    }
    with(numbers, written)
}

/// An answer of a call that is lent nothing.
fn only<A: library::Answer>(answer: A) -> Answer {
    with(answer, Written::default())
}

fn with<A: library::Answer>(answer: A, written: Written) -> Answer {
    Answer { numbers: answer.numbers(), written }
}
