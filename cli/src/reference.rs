//! Which array or image a reference by itself gives: that of its data, or of a group that names them.

use crate::datasets::Dataset;
use crate::directory::{Directory, Kind};
use crate::fault::Fault;
use crate::text::refusal;
use crate::words::Pair;
use hdf4::Rule;

/// The one array or image, of the kinds that are looked for, that a reference gives.
pub fn find(directory: &Directory, kinds: &[&'static Kind], reference: u16) -> Result<Dataset, Fault> {
    let mut found = Vec::new();
    for kind in kinds {
        found.extend(of_data(directory, kind, reference)?.or_else(|| of_group(directory, kind, reference)));
    }
    let file = directory.file;
    if found.len() > 1 {
        let why = "is both an array and an image; give --array or --image";
        return Err(Fault::Use(format!("{}: reference {reference} {why}", file.name)));
    }
    found.pop().ok_or_else(|| file.refused(refusal(Rule::Absent, why_none(directory, kinds, reference), 0)))
}

/// The array or image whose data have a reference.
fn of_data(directory: &Directory, kind: &'static Kind, reference: u16) -> Result<Option<Dataset>, Fault> {
    let mut pairs = kind.data.iter().map(|tag| (*tag, reference));
    let Some(data) = pairs.find(|pair| directory.has(*pair)) else { return Ok(None) };
    let describing = directory.groups(kind).filter(|group| directory.members(group).any(|member| member == data));
    let named = describing.filter_map(|group| directory.first_dimensions(kind, directory.members(group)));
    let own = || directory.has((kind.dimensions, reference)).then_some(reference);
    let dimensions = one_of(directory, kind, data, named.collect())?.or_else(own);
    Ok(dimensions.map(|dimensions| Dataset::new(kind, Some(data), dimensions)))
}

/// The dimensions by which groups describe data: one record alone, or none.
pub fn one_of(directory: &Directory, kind: &Kind, (tag, reference): Pair, mut named: Vec<u16>) -> Result<Option<u16>, Fault> {
    named.sort_unstable();
    named.dedup();
    let [one, other, ..] = named[..] else { return Ok(named.pop()) };
    let why = format!("groups describe {tag}/{reference} by {0}/{one} and by {0}/{other}", kind.dimensions);
    Err(Fault::Use(format!("{}: {why}; give the reference of a group", directory.file.name)))
}

/// The array or image that the group with a reference names.
fn of_group(directory: &Directory, kind: &'static Kind, reference: u16) -> Option<Dataset> {
    let mut groups = directory.groups(kind).filter(|group| group.reference == reference);
    groups.find_map(|group| {
        let data = directory.members(group).find(|pair| directory.is_data(kind, *pair))?;
        Some(Dataset::new(kind, Some(data), directory.first_dimensions(kind, directory.members(group))?))
    })
}

/// Why a reference gives nothing. Its group may have dimensions alone.
fn why_none(directory: &Directory, kinds: &[&'static Kind], reference: u16) -> String {
    let without_data = |kind: &&'static Kind| {
        let mut groups = directory.groups(kind).filter(|group| group.reference == reference);
        let group = groups.find(|group| directory.first_dimensions(kind, directory.members(group)).is_some())?;
        Some(kind.without_data((group.tag, reference)))
    };
    let none = || format!("reference {reference} gives no {} with its dimensions", names_of(kinds));
    kinds.iter().find_map(without_data).unwrap_or_else(none)
}

/// `array and no image`, behind `no`.
pub fn names_of(kinds: &[&Kind]) -> String {
    let names: Vec<&str> = kinds.iter().map(|kind| kind.name).collect();
    names.join(" and no ")
}
