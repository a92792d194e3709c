//! Which array or image is meant: by a reference, by tag and reference, or by a name.

use crate::datasets::{Catalog, Dataset};
use crate::directory::{Directory, Kind, ARRAY, IMAGE};
use crate::fault::Fault;
use crate::input::Input;
use crate::reference::{self, names_of, one_of};
use crate::text::{first_of, quoted, refusal, shown};
use crate::words::{number, slashed, Given, Words};
use hdf4::Rule;
use std::ffi::OsStr;
use std::os::unix::ffi::OsStrExt;

/// What an array or an image is named by.
pub enum Wanted<'a> {
    Reference(u16),
    Pair(Given, &'a OsStr),
    Name(&'a OsStr),
}

impl Wanted<'_> {
    /// A number is a reference; with a slash between them a word has tag and reference.
    pub fn new(word: &OsStr) -> Result<Wanted<'_>, Fault> {
        match slashed(word) {
            Some(given) => Ok(Wanted::Pair(given, word)),
            None => number(word).map(Wanted::Reference),
        }
    }
}

/// The kinds that the options allow.
pub fn kinds(words: &Words) -> Vec<&'static Kind> {
    match (words.has("--array"), words.has("--image")) {
        (true, _) => vec![&ARRAY],
        (_, true) => vec![&IMAGE],
        _ => vec![&ARRAY, &IMAGE],
    }
}

/// The one array or image, of the kinds that are looked for, that is wanted, and a note where others have its name. A reference by
/// itself tells nothing of what Vgroups say.
pub fn find(file: &Input, kinds: &[&'static Kind], wanted: &Wanted) -> Result<(Dataset, Option<String>), Fault> {
    match wanted {
        Wanted::Reference(number) => Ok((reference::find(&Directory::of(file)?, kinds, *number)?, None)),
        Wanted::Pair(given, word) => Ok((by_pair(&Catalog::of(file)?, kinds, given, word)?, None)),
        Wanted::Name(name) => by_name(&Catalog::of(file)?, kinds, name),
    }
}

fn by_pair(catalog: &Catalog, kinds: &[&'static Kind], given: &Given, word: &OsStr) -> Result<Dataset, Fault> {
    let directory = &catalog.directory;
    let pair = given.in_image(&directory.file.bytes).0;
    let found = among(catalog, kinds, |dataset| dataset.pairs().any(|own| own == pair));
    let none = || none(directory, format!("{} gives no {} with its dimensions", shown(word), names_of(kinds)));
    let first = *found.first().ok_or_else(none)?;
    let described = found.iter().filter(|dataset| dataset.data == Some(pair));
    one_of(directory, first.kind, pair, described.map(|dataset| dataset.dimensions).collect())?;
    Ok(first.clone())
}

/// The array or image that a name means: the first, as for libhdf4.
fn by_name(catalog: &Catalog, kinds: &[&'static Kind], name: &OsStr) -> Result<(Dataset, Option<String>), Fault> {
    let found = among(catalog, kinds, |dataset| dataset.name.as_deref() == Some(name.as_bytes()));
    let name = quoted(name.as_bytes());
    let Some((first, others)) = found.split_first() else {
        return Err(none(&catalog.directory, format!("there is no {} named {name}", names_of(kinds))));
    };
    let taken = word_of(first).unwrap_or_default();
    let told = first_of(others.iter().filter_map(|other| word_of(other)));
    let note = || format!("{} grids are named {name}, and {taken} was taken; others: {told}", found.len());
    Ok(((*first).clone(), (!others.is_empty()).then(note)))
}

/// Those of some kinds that are wanted.
fn among<'a>(catalog: &'a Catalog, kinds: &[&'static Kind], is_wanted: impl Fn(&Dataset) -> bool) -> Vec<&'a Dataset> {
    catalog.datasets.iter().filter(|dataset| kinds.contains(&dataset.kind) && is_wanted(dataset)).collect()
}

fn none(directory: &Directory, why: String) -> Fault {
    directory.file.refused(refusal(Rule::Absent, why, 0))
}

/// A word that means one array or image and no other.
fn word_of(dataset: &Dataset) -> Option<String> {
    let (tag, reference) = dataset.groups.first().copied().or_else(|| dataset.pairs().next())?;
    Some(format!("{tag}/{reference}"))
}
