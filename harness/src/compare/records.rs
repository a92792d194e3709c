//! Records: number types, dimensions and arrays; and which record is read by which call.

use super::{differ, packing, vset, Outcome, Pairs, Trial};
use crate::lent::{Filling, Table};
use crate::packing::Record;
use crate::reader::{Directory, EXTENDED};
use crate::records::{self, Array, Cause, Dimension, Found, NumberType, Reading, ARRAY, DIMENSIONS, NUMBER_TYPE};
use crate::tally::Call;
use crate::vset::{DATA, GROUP, HEAD};
use hdf4_sys::{self as library, Answer, ArrayAnswer, DimensionAnswer, NumberTypeAnswer};
use std::fmt::Debug;

/// The tags of records, one for each kind.
const KINDS: [u16; 5] = [NUMBER_TYPE, DIMENSIONS[0], ARRAY, GROUP, HEAD];

/// Compares the calls on each record of the image, or those on one record.
pub fn compare(trial: &mut Trial, pairs: Pairs) -> Outcome {
    if pairs == Pairs::All {
        return compare_all(trial, vset::MANY_VALUES);
    }
    let (tag, reference) = any_record(trial);
    compare_record(trial, tag, reference, vset::FEW_VALUES)
}

/// Compares the calls on each record of the image, up to so many values of a Vdata, and on one more that may not be there.
pub fn compare_all(trial: &mut Trial, most_values: usize) -> Outcome {
    let records = trial.directory.as_ref().map_or(Vec::new(), records_of);
    for (tag, reference) in records {
        compare_record(trial, tag, reference, most_values)?;
    }
    let (tag, reference) = any_record(trial);
    compare_record(trial, tag, reference, most_values)
}

/// Compares the calls on a record of each kind.
pub fn compare_each(trial: &mut Trial) -> Outcome {
    let reference = trial.random.below(3) as u16;
    KINDS.into_iter().try_for_each(|tag| compare_record(trial, tag, reference, vset::FEW_VALUES))
}

/// Base tag and reference of each record. The data of a Vdata that has a head stand for no record of their own.
fn records_of(directory: &Directory) -> Vec<(u16, u16)> {
    let is_alone = |tag, reference| tag != DATA || directory.slot(HEAD, reference).is_none();
    let live = directory.live().map(|slot| (slot.base_tag(), slot.reference));
    live.filter(|(tag, reference)| is_alone(*tag, *reference)).collect()
}

/// Some record of the image, or a tag and a reference that are seldom there.
fn any_record(trial: &mut Trial) -> (u16, u16) {
    let random = &mut trial.random;
    let tag = random.pick(&KINDS);
    let dimension = random.pick(&DIMENSIONS);
    let tag = if tag == DIMENSIONS[0] { dimension } else { tag };
    let stored = trial.directory.as_ref().map_or(Vec::new(), records_of);
    let alike: Vec<(u16, u16)> = stored.iter().copied().filter(|(stored, _)| *stored == tag).collect();
    if !alike.is_empty() && !random.once_in(4) {
        return random.pick(&alike);
    }
    let any = random.u16();
    (tag, random.pick(&[0, 1, 2, 3, any]))
}

/// The calls that read a record with this tag. Any other is read as a dimension now and then, since that call takes any tag.
fn compare_record(trial: &mut Trial, tag: u16, reference: u16, most_values: usize) -> Outcome {
    match tag {
        NUMBER_TYPE => compare_number_type(trial, reference),
        ARRAY => compare_array(trial, reference),
        GROUP => vset::compare_group(trial, reference),
        HEAD | DATA => vset::compare_vdata(trial, reference, most_values),
        tag if DIMENSIONS.contains(&tag) || trial.random.once_in(6) => compare_dimension(trial, tag, reference),
        _ => Ok(()),
    }
}

fn compare_number_type(trial: &mut Trial, reference: u16) -> Outcome {
    let library = library::read_number_type(trial.lent.image(), reference);
    let reading = records::read_number_type(trial.lent.image(), &trial.directory, reference);
    trial.judge(Call::ReadNumberType, &[reference.into()], library, &reading, number_type_read)?;
    pack_again(trial, reading, Record::NumberType)
}

pub fn number_type_read(found: &Found<NumberType>) -> NumberTypeAnswer {
    NumberTypeAnswer {
        version: found.record.version.into(),
        code: found.record.kind.into(),
        width: found.record.width.into(),
        number_class: found.record.class.into(),
        ..NumberTypeAnswer::default()
    }
}

/// A dimension by its tag or the extended one.
fn compare_dimension(trial: &mut Trial, tag: u16, reference: u16) -> Outcome {
    let tag = if tag < EXTENDED && trial.random.once_in(3) { tag + EXTENDED } else { tag };
    let library = library::read_dimension(trial.lent.image(), tag, reference);
    let reading = records::read_dimension(trial.lent.image(), &trial.directory, tag, reference);
    trial.judge(Call::ReadDimension, &[tag.into(), reference.into()], library, &reading, dimension_read)?;
    pack_again(trial, reading, Record::Dimension)
}

pub fn dimension_read(found: &Found<Dimension>) -> DimensionAnswer {
    DimensionAnswer {
        x: found.record.x.into(),
        y: found.record.y.into(),
        type_tag: found.record.type_tag.into(),
        type_ref: found.record.type_ref.into(),
        elements: found.record.elements.into(),
        interlace: found.record.interlace.into(),
        compression_tag: found.record.compression_tag.into(),
        compression_ref: found.record.compression_ref.into(),
        ..DimensionAnswer::default()
    }
}

fn compare_array(trial: &mut Trial, reference: u16) -> Outcome {
    let whole = records::read_array(trial.lent.image(), &trial.directory, reference, [usize::MAX; 2]);
    let needed = whole.as_ref().map_or([1, 4], |(found, _)| [found.record.sizes.len(), found.record.pairs.len()]);
    for rooms in two_rooms(trial, needed) {
        compare_array_in(trial, reference, rooms)?;
    }
    pack_again(trial, whole, Record::Array)
}

fn compare_array_in(trial: &mut Trial, reference: u16, rooms: [usize; 2]) -> Outcome {
    let arguments = [reference.into(), rooms[0], rooms[1]];
    let (mut sizes, mut pairs) = (Table::new(rooms[0]), Table::new(rooms[1]));
    let library = library::read_array(trial.lent.image(), reference, sizes.lend(), pairs.lend());
    let reading = records::read_array(trial.lent.image(), &trial.directory, reference, rooms);
    trial.judge(Call::ReadArray, &arguments, library, &reading, array_read)?;
    let written = reading.as_ref().ok().map(|(found, _)| &found.record);
    holds(Call::ReadArray, &arguments, &sizes, written.map_or(&[], |array| &array.sizes))?;
    holds(Call::ReadArray, &arguments, &pairs, written.map_or(&[], |array| &array.pairs))
}

pub fn array_read(found: &Found<Array>) -> ArrayAnswer {
    ArrayAnswer { rank: found.record.sizes.len() as u64, ..ArrayAnswer::default() }
}

/// Rooms for a table: exactly enough, one entry too little, more than enough, and none.
pub fn rooms(trial: &mut Trial, needed: usize) -> Vec<usize> {
    let mut rooms = vec![needed, needed + trial.random.between(1, 9), 0];
    if needed > 1 {
        rooms.push(needed - 1);
    }
    rooms
}

/// Rooms for two tables: both exactly enough, one of them too little, both more than enough, both too little.
pub fn two_rooms(trial: &mut Trial, [first, second]: [usize; 2]) -> Vec<[usize; 2]> {
    let more = trial.random.between(1, 9);
    let [less, fewer] = [first.saturating_sub(1), second.saturating_sub(1)];
    vec![[first, second], [less, second], [first, fewer], [first + more, second + more], [less, 0], [0, second]]
}

/// A record that was read is packed again, which must give its own bytes up to the last field.
pub fn pack_again<T>(trial: &mut Trial, reading: Reading<Found<T>>, record: fn(T) -> Record) -> Outcome {
    let Ok((found, _)) = reading else { return Ok(()) };
    let (start, end) = (found.place as usize, (found.place + found.length) as usize);
    let bytes = &trial.lent.image()[start..end];
    packing::compare_with(&record(found.record), bytes, trial.random, trial.tally)
}

/// What a call wrote to the front of a table, the rest of it being as it was.
pub fn holds<T>(call: Call, arguments: &[usize], table: &Table<T>, written: &[T]) -> Outcome
where
    T: Copy + Debug + PartialEq + Filling,
{
    match table.difference(written) {
        Some(difference) => differ(call, arguments, difference, "other entries in the table".into()),
        None => Ok(()),
    }
}

impl Trial<'_> {
    /// One call on a record: its answer, and the cause of it.
    pub fn judge<T, A: Answer>(
        &mut self,
        call: Call,
        arguments: &[usize],
        library: A,
        reading: &Reading<T>,
        granted: impl FnOnce(&T) -> A,
    ) -> Outcome {
        self.tally.count_cause(call, cause_of(reading));
        self.same(call, arguments, library, answer(reading, granted))
    }
}

/// What the library must answer.
pub fn answer<T, A: Answer>(reading: &Reading<T>, granted: impl FnOnce(&T) -> A) -> A {
    match reading {
        Ok((value, _)) => granted(value),
        Err(refused) => A::refused(refused.refusal.number, refused.refusal.place),
    }
}

pub fn cause_of<T>(reading: &Reading<T>) -> Cause {
    match reading {
        Ok((_, cause)) => *cause,
        Err(refused) => refused.cause,
    }
}
