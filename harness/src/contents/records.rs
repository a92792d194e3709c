//! The records of a file: Vgroups, Vdatas, their values and columns, and those of any kind that are not stored.

use super::recorded::{Contents, Element, Group, Storage, Value, Vdata};
use super::{refused, same, slot_of, Counts, Outcome};
use crate::compare::vset::value_at;
use crate::records::{ARRAY, DIMENSIONS, NUMBER_TYPE};
use crate::vset::{size_of, DATA, FIELD, GROUP, HEAD, VERSION};
use hdf4_sys::{self as library, ValueAnswer, ABSENT, NOT_STORED, NO_VALUE, RECORD, STORAGE, TYPE};

/// Compares all Vgroups and Vdatas, of which each that is stored is recorded.
pub fn compare_all(image: &[u8], contents: &Contents, counts: &mut Counts) -> Outcome {
    let Contents { elements, groups, vdatas } = contents;
    same("stored groups", contents.stored(GROUP), groups.iter().map(|group| group.reference).collect())?;
    same("stored Vdatas", contents.stored(HEAD), vdatas.iter().map(|vdata| vdata.reference).collect())?;
    for Element { tag, reference, .. } in elements.iter().filter(|element| element.is_unstored()) {
        unstored_refused(image, *tag, *reference).map_err(|fault| format!("record {tag}/{reference}: {fault}"))?;
    }
    for group in groups {
        compare_group(image, group, counts).map_err(|fault| format!("group {}: {fault}", group.reference))?;
    }
    for vdata in vdatas {
        let data = contents.storage(DATA, vdata.reference);
        let outcome = compare_vdata(image, vdata, data, counts);
        outcome.map_err(|fault| format!("Vdata {}: {fault}", vdata.reference))?;
    }
    Ok(())
}

/// Each call that reads a record of that tag says that it is not stored.
fn unstored_refused(image: &[u8], tag: u16, reference: u16) -> Outcome {
    let slot = slot_of(image, tag, reference)?;
    match tag {
        NUMBER_TYPE => refused("number type", library::read_number_type(image, reference), NOT_STORED, slot),
        ARRAY => refused("array", library::read_array(image, reference, &mut [], &mut []), NOT_STORED, slot),
        GROUP => {
            refused("group", library::read_group(image, reference, &mut []), NOT_STORED, slot)?;
            refused("listing", library::list_group(image, reference, &mut []), NOT_STORED, slot)
        }
        HEAD => head_refused(image, reference, NOT_STORED),
        _ if DIMENSIONS.contains(&tag) => {
            refused("dimension", library::read_dimension(image, tag, reference), NOT_STORED, slot)
        }
        _ => Ok(()),
    }
}

fn compare_group(image: &[u8], group: &Group, counts: &mut Counts) -> Outcome {
    let mut members = vec![0; group.members.len()];
    let a = library::read_group(image, group.reference, &mut members);
    if group.version != u64::from(VERSION) {
        counts.other_version += 1;
        return refused("group", a, RECORD, slot_of(image, GROUP, group.reference)?);
    }
    let count = group.members.len() as u64 / 2;
    same("group", [a.number, a.place, a.members, a.version], [0, 0, count, group.version])?;
    same("members", &members, &group.members)?;
    same("name", text(image, a.name_offset, a.name_length), Some(&group.name))?;
    same("class", text(image, a.class_offset, a.class_length), Some(&group.class))?;
    counts.groups += 1;
    Ok(())
}

/// Compares a head, its fields and its values; these are in another element.
fn compare_vdata(image: &[u8], vdata: &Vdata, data: Option<&Storage>, counts: &mut Counts) -> Outcome {
    if vdata.version != u64::from(VERSION) {
        counts.other_version += 1;
        return head_refused(image, vdata.reference, RECORD);
    }
    if vdata.fields.iter().any(|field| size_of(field.code).is_none()) {
        counts.other_type += 1;
        return head_refused(image, vdata.reference, TYPE);
    }
    let count = vdata.fields.len();
    let (mut fields, mut names) = (vec![0; FIELD * count], vec![0; 2 * count]);
    let a = library::read_vdata(image, vdata.reference, &mut fields, &mut names);
    let Vdata { interlace, records, record_size, version, .. } = *vdata;
    same("head", [a.number, a.place, a.interlace, a.records], [0, 0, interlace, records])?;
    same("head", [a.record_size, a.fields, a.version], [record_size, count as u64, version])?;
    same("name", text(image, a.name_offset, a.name_length), Some(&vdata.name))?;
    same("class", text(image, a.class_offset, a.class_length), Some(&vdata.class))?;
    same("fields", fields, fields_of(vdata))?;
    for (name, field) in names.chunks_exact(2).zip(&vdata.fields) {
        same("name of a field", text(image, name[0].into(), name[1].into()), Some(&field.name))?;
    }
    counts.vdatas += 1;
    compare_values(image, vdata, data, counts)
}

/// A head is refused, and with it any value.
fn head_refused(image: &[u8], reference: u16, number: u64) -> Outcome {
    let slot = slot_of(image, HEAD, reference)?;
    refused("head", library::read_vdata(image, reference, &mut [], &mut []), number, slot)?;
    refused("head", library::read_fields(image, reference, &mut []), number, slot)?;
    refused("value", value_at(image, reference, [0; 3]), number, slot)?;
    refused("column", library::read_column(image, reference, 0, 0, &mut []), number, slot)
}

/// Type, size, offset and order of each field. libhdf4 tells no offsets: a field stands right behind the one before.
fn fields_of(vdata: &Vdata) -> Vec<u16> {
    let (mut numbers, mut offset) = (Vec::new(), 0);
    for field in &vdata.fields {
        numbers.extend([field.code, field.size, offset, field.order]);
        offset += field.size;
    }
    numbers
}

/// Compares the values or, where these are not stored plainly, what is answered for the first one; and for one too many.
fn compare_values(image: &[u8], vdata: &Vdata, data: Option<&Storage>, counts: &mut Counts) -> Outcome {
    let Vdata { reference, records, .. } = *vdata;
    let is_plain = matches!(data, Some(Storage::Plain(_)));
    same("recorded records", vdata.values.len() as u64, if is_plain { records } else { 0 })?;
    refused("value past the last record", value_at(image, reference, [records, 0, 0]), NO_VALUE, 0)?;
    let after = library::read_column(image, reference, vdata.fields.len() as u64, 0, &mut []);
    refused("column past the last field", after, NO_VALUE, 0)?;
    if records == 0 {
        return compare_columns(image, vdata);
    }
    let slot = || slot_of(image, DATA, reference);
    let (number, place) = match data {
        Some(Storage::Plain(_)) => {
            compare_records(image, vdata, counts)?;
            return compare_columns(image, vdata);
        }
        Some(Storage::Linked(_) | Storage::Special(_)) => (STORAGE, slot()?),
        Some(Storage::Unstored) => (NOT_STORED, slot()?),
        None => (ABSENT, 0),
    };
    refused("value", value_at(image, reference, [0; 3]), number, place)?;
    refused("column", library::read_column(image, reference, 0, 0, &mut []), number, place)
}

fn compare_records(image: &[u8], vdata: &Vdata, counts: &mut Counts) -> Outcome {
    for (record, values) in (0..).zip(&vdata.values) {
        let indices = indices_of(vdata, record);
        same("recorded values", values.len(), indices.len())?;
        for (indices, Value { kind, bits }) in indices.into_iter().zip(values) {
            let value = ValueAnswer { kind: *kind, bits: *bits, ..ValueAnswer::default() };
            same(&format!("value {indices:?}"), value_at(image, vdata.reference, indices), value)?;
            *counts.values.entry(vdata.fields[indices[1] as usize].code).or_default() += 1;
        }
    }
    Ok(())
}

/// Each component of each field in all records, none of them where there are none.
fn compare_columns(image: &[u8], vdata: &Vdata) -> Outcome {
    for (at, [_, field, component]) in indices_of(vdata, 0).into_iter().enumerate() {
        let values = vdata.values.iter().map(|record| &record[at]);
        let known: Vec<u64> = values.clone().map(|value| value.bits).collect();
        let mut out = vec![0; known.len()];
        let a = library::read_column(image, vdata.reference, field, component, &mut out);
        let name = format!("column {field}, {component}");
        same(&name, [a.number, a.place, a.records], [0, 0, vdata.records])?;
        values.into_iter().try_for_each(|value| same(&name, a.kind, value.kind))?;
        same(&name, out, known)?;
    }
    Ok(())
}

/// Record, field and component of each value of a record.
fn indices_of(vdata: &Vdata, record: u64) -> Vec<[u64; 3]> {
    let orders = (0..).zip(vdata.fields.iter().map(|field| field.order.into()));
    orders.flat_map(|(field, order)| (0..order).map(move |component| [record, field, component])).collect()
}

/// A name that stands in the image.
fn text(image: &[u8], place: u64, length: u64) -> Option<&str> {
    let bytes = image.get(place as usize..(place + length) as usize)?;
    std::str::from_utf8(bytes).ok()
}
