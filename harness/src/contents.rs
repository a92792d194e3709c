//! What libhdf4 reads of the real files, which the library must read alike: elements, Vgroups, Vdatas and their values.
//! `files/contents.txt` has it, of each file that opens.

mod elements;
mod recorded;
mod records;

use crate::files;
use crate::reader::base_tag;
use crate::vset::size_of;
use hdf4_sys::{self as library, Answer};
use recorded::Contents;
use std::collections::BTreeMap;
use std::fmt::{self, Debug};

/// How much was compared.
#[derive(Default)]
pub struct Counts {
    files: usize,
    plain: usize,
    linked: usize,
    special: usize,
    unstored: usize,
    groups: usize,
    vdatas: usize,
    /// By the code of their type.
    values: BTreeMap<u16, usize>,
    other_version: usize,
    other_type: usize,
}

type Outcome = Result<(), String>;

/// Compares every file that opens. Each of these is recorded, and no other file is.
pub fn compare_all() -> Result<Counts, String> {
    let mut recorded = recorded::read_all()?;
    let mut counts = Counts::default();
    for name in files::names_that_open()? {
        let contents = recorded.remove(&name).ok_or(format!("{name} opens, but is not recorded"))?;
        compare_file(&files::image(&name)?, &contents, &mut counts).map_err(|fault| format!("{name}: {fault}"))?;
    }
    match recorded.into_keys().next() {
        Some(name) => Err(format!("{name} is recorded, but no file that opens")),
        None => counts.complete(),
    }
}

fn compare_file(image: &[u8], contents: &Contents, counts: &mut Counts) -> Outcome {
    elements::compare_list(image, &contents.elements)?;
    for element in &contents.elements {
        let outcome = elements::compare(image, element, counts);
        outcome.map_err(|fault| format!("element {}/{}: {fault}", element.tag, element.reference))?;
    }
    records::compare_all(image, contents, counts)?;
    counts.files += 1;
    Ok(())
}

impl Counts {
    fn titled(&self) -> [(usize, &'static str); 11] {
        [
            (self.files, "files"),
            (self.plain, "plain elements"),
            (self.linked, "elements in linked blocks"),
            (self.special, "elements stored otherwise"),
            (self.unstored, "elements not stored"),
            (self.groups, "groups"),
            (self.vdatas, "Vdatas"),
            (self.values.values().sum(), "values"),
            (self.values.len(), "types of values"),
            (self.other_version, "groups and Vdatas of a version that is refused"),
            (self.other_type, "Vdatas of a type that is refused"),
        ]
    }

    /// The counts, if none of them is 0, nor that of the values of a type.
    fn complete(self) -> Result<Counts, String> {
        let none = self.titled().into_iter().find(|(count, _)| *count == 0).map(|(_, title)| title.into());
        match none.or(self.type_without_values()) {
            Some(title) => Err(format!("no {title} compared with what libhdf4 reads")),
            None => Ok(self),
        }
    }

    /// A type that is known, and of which there is no value.
    fn type_without_values(&self) -> Option<String> {
        let mut known = (0..=u16::MAX).filter(|code| size_of(*code).is_some());
        known.find(|code| !self.values.contains_key(code)).map(|code| format!("values of type {code}"))
    }
}

impl fmt::Display for Counts {
    fn fmt(&self, out: &mut fmt::Formatter) -> fmt::Result {
        let counts = self.titled().map(|(count, title)| format!("{count} {title}"));
        write!(out, "as libhdf4 reads them: {}", counts.join(", "))
    }
}

/// The place of the slot that holds the base tag of a tag and a reference.
fn slot_of(image: &[u8], tag: u16, reference: u16) -> Result<u64, String> {
    let answer = library::find(image, tag, reference);
    same("lookup", [answer.number, answer.place], [0, 0])?;
    let held = (base_tag(number_at(image, answer.slot)), number_at(image, answer.slot + 2));
    same("slot of a lookup", held, (base_tag(tag), reference))?;
    Ok(answer.slot)
}

fn number_at(image: &[u8], place: u64) -> u16 {
    u16::from_be_bytes([image[place as usize], image[place as usize + 1]])
}

/// The library must refuse a call, with a number at a place.
fn refused<A: Answer>(what: &str, library: A, number: u64, place: u64) -> Outcome {
    same(what, library, A::refused(number, place))
}

/// What the library says must be what follows from what libhdf4 reads.
fn same<T: PartialEq + Debug>(what: &str, library: T, expected: T) -> Outcome {
    match library == expected {
        true => Ok(()),
        false => Err(format!("{what}\nlibrary  {library:?}\nexpected {expected:?}")),
    }
}
