//! What an edit did to an element, for a person and for a program.

use crate::fault::Fault;
use crate::json::Json;
use crate::storage::{own_length, pair_of};
use crate::tags;
use crate::words::Pair;
use hdf4::{base_tag, Element, Error};
use std::collections::HashMap;
use std::fmt::{self, Display};

/// How many bytes an element has; none where it is not stored.
pub type Amount = Option<u64>;

#[derive(Clone, Copy, Debug, PartialEq)]
pub enum What {
    Added { bytes: Amount },
    Replaced { bytes: Amount, before: Amount },
    Removed { bytes: Amount },
}

#[derive(Clone, Copy, Debug, PartialEq)]
pub struct Change {
    pub pair: Pair,
    pub what: What,
}

/// What one edit changed: one element, where this library made it.
pub struct Edit {
    pub desk: u32,
    pub changes: Vec<Change>,
}

impl Display for Change {
    fn fmt(&self, f: &mut fmt::Formatter<'_>) -> fmt::Result {
        let Change { pair: (tag, reference), what } = *self;
        let (verb, bytes) = (what.verb(), amount(what.bytes()));
        write!(f, "{verb} tag {} ref {reference}, {bytes}", tags::named(base_tag(tag)))?;
        match what {
            What::Replaced { before, .. } => write!(f, " (before: {})", amount(before)),
            _ => Ok(()),
        }
    }
}

impl What {
    fn verb(self) -> &'static str {
        match self {
            What::Added { .. } => "added",
            What::Replaced { .. } => "replaced",
            What::Removed { .. } => "removed",
        }
    }

    /// How many bytes the element has now or, where it was removed, had.
    fn bytes(self) -> Amount {
        match self {
            What::Added { bytes } | What::Replaced { bytes, .. } | What::Removed { bytes } => bytes,
        }
    }

    fn before(self) -> Amount {
        match self {
            What::Replaced { before, .. } => before,
            _ => None,
        }
    }
}

impl Display for Edit {
    fn fmt(&self, f: &mut fmt::Formatter<'_>) -> fmt::Result {
        match &self.changes[..] {
            [change] => write!(f, "{change}"),
            changes => write!(f, "changed {} elements", changes.len()),
        }
    }
}

impl Edit {
    /// An object. What is not known of one element is null: so it is where an edit of another program changed none or several.
    pub fn json(&self, json: &mut Json) -> Result<(), Fault> {
        let only = if let [change] = &self.changes[..] { Some(change) } else { None };
        json.open('{')?;
        json.entry("desk", self.desk)?;
        json.text_entry("what", only.map_or("changed", |change| change.what.verb()).as_bytes())?;
        json.entry("elements", self.changes.len())?;
        json.optional_entry("tag", only.map(|change| change.pair.0))?;
        tags::json(only.map(|change| change.pair.0), json)?;
        json.optional_entry("ref", only.map(|change| change.pair.1))?;
        json.optional_entry("bytes", only.and_then(|change| change.what.bytes()))?;
        json.optional_entry("before", only.and_then(|change| change.what.before()))?;
        json.close('}')
    }
}

fn amount(bytes: Amount) -> String {
    match bytes {
        None => "not stored".to_string(),
        Some(1) => "1 byte".to_string(),
        Some(bytes) => format!("{bytes} bytes"),
    }
}

/// How many bytes an element of an image has; none where it is not stored.
fn amount_of(image: &[u8], element: &Element) -> Amount {
    let stored = || u64::from(element.length);
    element.is_stored().then(|| own_length(image, element).unwrap_or_else(stored))
}

/// Undoes the newest edit of the image at the front of a buffer for a desk. Gives the length before it, and what it had changed.
pub fn take_back(buffer: &mut [u8], length: usize, desk: u32) -> Result<(usize, Edit), Error> {
    let now = hdf4::list(&buffer[..length])?;
    let length = hdf4::undo(buffer, length, desk)?;
    let changes = changes(&now, &buffer[..length])?;
    Ok((length, Edit { desk, changes }))
}

/// What differs in the elements after an edit from those of the image before it.
fn changes(now: &[Element], before: &[u8]) -> Result<Vec<Change>, Error> {
    let mut old: HashMap<Pair, Element> = hdf4::list(before)?.into_iter().map(|element| (pair_of(&element), element)).collect();
    let mut changes = Vec::new();
    for element in now {
        // What an edit stores is in plain storage.
        let bytes = element.is_stored().then_some(element.length.into());
        let what = match old.remove(&pair_of(element)) {
            None => What::Added { bytes },
            Some(same) if same == *element => continue,
            Some(other) => What::Replaced { bytes, before: amount_of(before, &other) },
        };
        changes.push(Change { pair: pair_of(element), what });
    }
    let removed =
        |element: &Element| Change { pair: pair_of(element), what: What::Removed { bytes: amount_of(before, element) } };
    let mut gone: Vec<Change> = old.values().map(removed).collect();
    gone.sort_by_key(|change| change.pair);
    changes.extend(gone);
    Ok(changes)
}
