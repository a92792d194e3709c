//! Vgroups, Vdata heads, Vdata values and columns of them, and the listing of groups.

use super::records::{holds, pack_again, rooms, two_rooms};
use super::{Outcome, Trial};
use crate::lent::Table;
use crate::packing::Record;
use crate::random::Random;
use crate::records::Found;
use crate::tally::Call;
use crate::vset::{self, Column, Group, Value, Vdata, FIELD};
use hdf4_sys::{self as library, ColumnAnswer, Field, GroupAnswer, GroupListAnswer, ValueAnswer, VdataAnswer};
use std::collections::BTreeSet;

/// How many values of a Vdata are read, each of them where there are no more.
pub const FEW_VALUES: usize = 8;
pub const MANY_VALUES: usize = 600;

/// How many records a column has at most that is read whole.
const MOST_RECORDS: u32 = 1 << 16;

/// Indices that no Vdata has.
const ABSURD: [u64; 5] = [1 << 16, 1 << 32, (1 << 32) + 1, 1 << 63, u64::MAX];

/// Reads a group, packs it again, and lists what is below it.
pub fn compare_group(trial: &mut Trial, reference: u16) -> Outcome {
    let whole = vset::read_group(trial.lent.image(), &trial.directory, reference, usize::MAX);
    let needed = whole.as_ref().map_or(2, |(found, _)| found.record.members.len());
    for room in rooms(trial, needed) {
        compare_group_in(trial, reference, room)?;
    }
    pack_again(trial, whole, Record::Group)?;
    for room in list_rooms(trial, reference) {
        compare_list(trial, reference, room)?;
    }
    Ok(())
}

fn compare_group_in(trial: &mut Trial, reference: u16, room: usize) -> Outcome {
    let arguments = [reference.into(), room];
    let mut members = Table::new(room);
    let library = library::read_group(trial.lent.image(), reference, members.lend());
    let reading = vset::read_group(trial.lent.image(), &trial.directory, reference, room);
    trial.judge(Call::ReadGroup, &arguments, library, &reading, group_read)?;
    let written = reading.as_ref().map_or(&[][..], |(found, _)| &found.record.members);
    holds(Call::ReadGroup, &arguments, &members, written)
}

pub fn group_read(found: &Found<Group>) -> GroupAnswer {
    let Group { members, tail } = &found.record;
    GroupAnswer {
        members: members.len() as u64 / 2,
        name_offset: found.names[0],
        name_length: tail.name.len() as u64,
        class_offset: found.names[1],
        class_length: tail.class.len() as u64,
        extension_tag: tail.extension_tag.into(),
        extension_ref: tail.extension_ref.into(),
        version: tail.version.into(),
        more: tail.more.into(),
        ..GroupAnswer::default()
    }
}

/// Rooms for a listing: as many entries as it has up to its end or to the pair that is refused, a few less or more, and none.
fn list_rooms(trial: &mut Trial, reference: u16) -> Vec<usize> {
    let listed = vset::listing(trial.lent.image(), &trial.directory, reference, usize::MAX).pairs.len();
    let mut rooms = vec![0, listed, listed + 1, listed + 2, listed + trial.random.between(3, 12)];
    if listed > 0 {
        rooms.extend([listed - 1, listed - 2, trial.random.below(listed)]);
    }
    rooms
}

fn compare_list(trial: &mut Trial, reference: u16, room: usize) -> Outcome {
    let arguments = [reference.into(), room];
    let mut list = Table::new(room);
    let library = library::list_group(trial.lent.image(), reference, list.lend());
    let reading = vset::list_group(trial.lent.image(), &trial.directory, reference, room);
    trial.judge(Call::ListGroup, &arguments, library, &reading, |pairs| group_listed(pairs))?;
    holds(Call::ListGroup, &arguments, &list, reading.as_ref().map_or(&[], |(pairs, _)| pairs))
}

pub fn group_listed(pairs: &[u16]) -> GroupListAnswer {
    GroupListAnswer { pairs: pairs.len() as u64 / 2, ..GroupListAnswer::default() }
}

/// Reads the head of a Vdata by both its calls, packs it again, and reads some or all of its values, and columns of them.
pub fn compare_vdata(trial: &mut Trial, reference: u16, most_values: usize) -> Outcome {
    let whole = vset::read_vdata(trial.lent.image(), &trial.directory, reference, [usize::MAX; 2]);
    let head = whole.as_ref().ok().map(|(found, _)| &found.record);
    let fields = head.map_or(1, |head| head.name_lengths.len());
    let records = head.map_or(0, |head| head.records);
    let asked = head.map_or(any_indices(trial.random), |head| values(trial.random, head, most_values));
    for rooms in two_rooms(trial, [FIELD * fields, 2 * fields]) {
        compare_head(trial, reference, rooms)?;
    }
    for room in rooms(trial, fields) {
        compare_fields(trial, reference, room)?;
    }
    pack_again(trial, whole, Record::Vdata)?;
    let columns: BTreeSet<[u64; 2]> = asked.iter().map(|[_, field, component]| [*field, *component]).collect();
    for indices in asked {
        compare_value(trial, reference, indices)?;
    }
    let is_short = records <= MOST_RECORDS;
    columns.into_iter().try_for_each(|indices| compare_column(trial, reference, indices, is_short))
}

fn compare_head(trial: &mut Trial, reference: u16, rooms: [usize; 2]) -> Outcome {
    let arguments = [reference.into(), rooms[0], rooms[1]];
    let (mut fields, mut names) = (Table::new(rooms[0]), Table::new(rooms[1]));
    let library = library::read_vdata(trial.lent.image(), reference, fields.lend(), names.lend());
    let reading = vset::read_vdata(trial.lent.image(), &trial.directory, reference, rooms);
    trial.judge(Call::ReadVdata, &arguments, library, &reading, vdata_read)?;
    let found = reading.as_ref().ok().map(|(found, _)| found);
    if let Some(found) = found {
        trial.tally.count_types(Call::ReadVdata, &found.record);
    }
    holds(Call::ReadVdata, &arguments, &fields, found.map_or(&[], |found| &found.record.fields))?;
    holds(Call::ReadVdata, &arguments, &names, &found.map_or(Vec::new(), field_names))
}

/// Place and length of each field's name.
pub fn field_names(found: &Found<Vdata>) -> Vec<u32> {
    let lengths = found.record.name_lengths.iter();
    found.names.iter().zip(lengths).flat_map(|(place, length)| [*place as u32, (*length).into()]).collect()
}

fn compare_fields(trial: &mut Trial, reference: u16, room: usize) -> Outcome {
    let arguments = [reference.into(), room];
    let mut table = Table::new(room);
    let library = library::read_fields(trial.lent.image(), reference, table.lend());
    let reading = vset::read_fields(trial.lent.image(), &trial.directory, reference, room);
    trial.judge(Call::ReadFields, &arguments, library, &reading, vdata_read)?;
    let found = reading.as_ref().ok().map(|(found, _)| found);
    if let Some(found) = found {
        trial.tally.count_types(Call::ReadFields, &found.record);
    }
    holds(Call::ReadFields, &arguments, &table, &found.map_or(Vec::new(), fields_of))
}

/// The fields with the places and lengths of their names.
pub fn fields_of(found: &Found<Vdata>) -> Vec<Field> {
    let names = found.names.iter().zip(&found.record.name_lengths);
    let field = |(field, (place, length)): (vset::Field, (&u64, &u16))| Field {
        code: field.number_type,
        size: field.size,
        offset: field.offset,
        order: field.order,
        name_offset: *place as u32,
        name_length: (*length).into(),
    };
    found.record.field_list().zip(names).map(field).collect()
}

pub fn vdata_read(found: &Found<Vdata>) -> VdataAnswer {
    let Vdata { interlace, records, record_size, name_lengths, tail, .. } = &found.record;
    let fields = name_lengths.len();
    VdataAnswer {
        interlace: (*interlace).into(),
        records: (*records).into(),
        record_size: (*record_size).into(),
        fields: fields as u64,
        name_offset: found.names[fields],
        name_length: tail.name.len() as u64,
        class_offset: found.names[fields + 1],
        class_length: tail.class.len() as u64,
        extension_tag: tail.extension_tag.into(),
        extension_ref: tail.extension_ref.into(),
        version: tail.version.into(),
        more: tail.more.into(),
        ..VdataAnswer::default()
    }
}

fn compare_value(trial: &mut Trial, reference: u16, indices: [u64; 3]) -> Outcome {
    let [record, field, component] = indices.map(|index| index as usize);
    let library = value_at(trial.lent.image(), reference, indices);
    let reading = vset::read_value(trial.lent.image(), &trial.directory, reference, indices);
    if let Ok((value, cause)) = &reading {
        trial.tally.count_value(value, *cause);
    }
    let arguments = [reference.into(), record, field, component];
    trial.judge(Call::ReadValue, &arguments, library, &reading, value_read)
}

/// What the library answers for a value, by the indices of its record, field and component.
pub fn value_at(image: &[u8], reference: u16, [record, field, component]: [u64; 3]) -> ValueAnswer {
    library::read_value(image, reference, record, field, component)
}

pub fn value_read(value: &Value) -> ValueAnswer {
    ValueAnswer { kind: value.kind, bits: value.bits, ..ValueAnswer::default() }
}

/// A column, with room for a value of each record, one too few, more, and none. A longer one is not read whole.
fn compare_column(trial: &mut Trial, reference: u16, indices: [u64; 2], is_short: bool) -> Outcome {
    let room = if is_short { usize::MAX } else { 0 };
    let whole = vset::read_column(trial.lent.image(), &trial.directory, reference, indices, room);
    let needed = whole.as_ref().map_or(1, |(column, _)| column.bits.len());
    rooms(trial, needed).into_iter().try_for_each(|room| compare_column_in(trial, reference, indices, room))
}

fn compare_column_in(trial: &mut Trial, reference: u16, indices: [u64; 2], room: usize) -> Outcome {
    let [field, component] = indices;
    let mut out = Table::new(room);
    let library = library::read_column(trial.lent.image(), reference, field, component, out.lend());
    let reading = vset::read_column(trial.lent.image(), &trial.directory, reference, indices, room);
    if let Ok((column, cause)) = &reading {
        trial.tally.count_column(column, *cause);
    }
    let arguments = [reference.into(), field as usize, component as usize, room];
    trial.judge(Call::ReadColumn, &arguments, library, &reading, column_read)?;
    holds(Call::ReadColumn, &arguments, &out, reading.as_ref().map_or(&[], |(column, _)| &column.bits))
}

pub fn column_read(column: &Column) -> ColumnAnswer {
    ColumnAnswer { kind: column.kind, records: column.bits.len() as u64, ..ColumnAnswer::default() }
}

/// The indices of all values in a Vdata or, where there are too many, of some; and indices just and far too large.
fn values(random: &mut Random, head: &Vdata, most: usize) -> Vec<[u64; 3]> {
    let orders: Vec<u64> = head.field_list().map(|field| field.order.into()).collect();
    let (records, fields) = (u64::from(head.records), orders.len() as u64);
    let last = |count: u64| count.saturating_sub(1);
    let components: u64 = orders.iter().sum();
    let mut asked: Vec<[u64; 3]> = match records * components <= most as u64 {
        true => all_values(records, &orders).collect(),
        false => (0..most).map(|_| any_value(random, records, &orders)).collect(),
    };
    let field = random.below(orders.len().max(1));
    let order = orders.get(field).copied().unwrap_or(1);
    let good = [last(records), field as u64, last(order)];
    for (index, count) in [records, fields, order].into_iter().enumerate() {
        for past in [count, random.pick(&ABSURD), good[index].wrapping_add(1 << 32)] {
            let mut indices = good;
            indices[index] = past;
            asked.push(indices);
        }
    }
    asked.push(good);
    asked
}

fn all_values(records: u64, orders: &[u64]) -> impl Iterator<Item = [u64; 3]> + '_ {
    let fields = move |record| (0_u64..).zip(orders).map(move |(field, order)| (record, field, *order));
    let components = |(record, field, order)| (0..order).map(move |component| [record, field, component]);
    (0..records).flat_map(fields).flat_map(components)
}

/// Any value, mostly of the first or last record and component.
fn any_value(random: &mut Random, records: u64, orders: &[u64]) -> [u64; 3] {
    let field = random.below(orders.len());
    let record = some_index(random, records);
    [record, field as u64, some_index(random, orders[field])]
}

fn some_index(random: &mut Random, count: u64) -> u64 {
    let any = random.below(count.max(1) as usize) as u64;
    random.pick(&[0, count.saturating_sub(1), any, any])
}

fn any_indices(random: &mut Random) -> Vec<[u64; 3]> {
    vec![[0, 0, 0], [random.pick(&ABSURD), 0, 0], [0, 1, random.below(3) as u64]]
}
