//! The words of a command: options, files, numbers.

use crate::fault::Fault;
use crate::tags;
use crate::text::shown;
use std::ffi::{OsStr, OsString};
use std::os::unix::ffi::OsStrExt;

/// Tag and reference.
pub type Pair = (u16, u16);

/// An option that a command takes: `--json`, or `--most` with a value behind it.
#[derive(Clone, Copy)]
pub struct Choice {
    pub name: &'static str,
    pub has_value: bool,
}

/// What stands behind the command.
pub struct Words {
    words: Vec<OsString>,
    options: Vec<(&'static str, OsString)>,
}

impl Words {
    /// Tells options from other words. Behind `--` all are words; `-` is one too.
    pub fn new(given: Vec<OsString>, choices: &[Choice]) -> Result<Words, Fault> {
        let (mut words, mut options) = (Vec::new(), Vec::new());
        let mut given = given.into_iter();
        while let Some(word) = given.next() {
            if word == "--" {
                words.extend(given.by_ref());
            } else if is_option(&word) {
                options.push(option(&word, &mut given, choices)?);
            } else {
                words.push(word);
            }
        }
        Ok(Words { words, options })
    }

    pub fn all(&self) -> Vec<&OsStr> {
        self.words.iter().map(OsString::as_os_str).collect()
    }

    pub fn has(&self, name: &str) -> bool {
        self.value(name).is_some()
    }

    /// The value of an option, the last one where it is given twice.
    pub fn value(&self, name: &str) -> Option<&OsStr> {
        self.options.iter().rev().find(|option| option.0 == name).map(|option| option.1.as_os_str())
    }
}

/// Two hyphens, or one and a letter: a number with a sign is a word, and so is a hyphen alone.
fn is_option(word: &OsStr) -> bool {
    matches!(word.as_bytes(), [b'-', b'-', ..] | [b'-', b'A'..=b'Z' | b'a'..=b'z', ..])
}

/// An option with its value, which stands behind `=` or is the next word.
fn option(
    word: &OsStr,
    rest: &mut impl Iterator<Item = OsString>,
    choices: &[Choice],
) -> Result<(&'static str, OsString), Fault> {
    let mut parts = word.as_bytes().splitn(2, |byte| *byte == b'=').map(OsStr::from_bytes);
    let (name, value) = (parts.next().unwrap_or(word), parts.next().map(OsStr::to_os_string));
    let Some(choice) = choices.iter().find(|choice| name == choice.name) else {
        return Err(Fault::Use(format!("{}: no such option here", shown(name))));
    };
    let name = choice.name;
    match (choice.has_value, value) {
        (false, None) => Ok((choice.name, OsString::new())),
        (false, Some(_)) => Err(Fault::Use(format!("{name}: takes no value"))),
        (true, Some(value)) => Ok((choice.name, value)),
        (true, None) => rest.next().map(|value| (choice.name, value)).ok_or(Fault::Use(format!("{name}: its value is missing"))),
    }
}

/// Tag and reference as they are given: a tag by its name may be one of two.
pub struct Given {
    tags: Vec<u16>,
    reference: u16,
}

impl Given {
    pub fn new(tag: &OsStr, reference: &OsStr) -> Result<Given, Fault> {
        Ok(Given { tags: tags_of(tag)?, reference: number(reference)? })
    }

    /// The pair that is meant where none is there yet.
    pub fn first(&self) -> Pair {
        (self.tags[0], self.reference)
    }

    /// The pair that is meant in an image: of two tags the one that it has, and of both the first, with a note that says so
    /// unless both have the same bytes.
    pub fn in_image(&self, image: &[u8]) -> (Pair, Option<String>) {
        let reference = self.reference;
        if self.tags.len() == 1 {
            return (self.first(), None);
        }
        let is_there = |tag: &&u16| hdf4::find(image, **tag, reference).is_ok();
        let there: Vec<u16> = self.tags.iter().filter(is_there).copied().collect();
        let bytes = |tag: u16| hdf4::view(image, tag, reference).ok();
        match there[..] {
            [] => (self.first(), None),
            [tag, other, ..] if bytes(tag) != bytes(other) || bytes(tag).is_none() => {
                let note = format!("{tag}/{reference} and {other}/{reference} both have that name; {tag}/{reference} was taken");
                ((tag, reference), Some(note))
            }
            [tag, ..] => ((tag, reference), None),
        }
    }
}

/// The tags that a word means, one at least: a number, or a name.
fn tags_of(word: &OsStr) -> Result<Vec<u16>, Fault> {
    let named = word.to_str().map(tags::with_name).unwrap_or_default();
    if !named.is_empty() {
        return Ok(named);
    }
    number(word).map(|tag| vec![tag])
}

/// Tag and reference with a slash between them, if a word is such: `302/2` or `RI8/2`.
pub fn slashed(word: &OsStr) -> Option<Given> {
    let (tag, reference) = word.to_str()?.split_once('/')?;
    Given::new(OsStr::new(tag), OsStr::new(reference)).ok()
}

/// A number of 16 bits, decimal or with 0x before it.
pub fn number(word: &OsStr) -> Result<u16, Fault> {
    let number = unsigned(word).and_then(|number| u16::try_from(number).ok());
    number.ok_or(Fault::Use(format!("{}: not a number from 0 to 65535", shown(word))))
}

/// A number of 32 bits, given by an option or a variable of that name.
pub fn long_number(name: &str, word: &OsStr) -> Result<u32, Fault> {
    let number = unsigned(word).and_then(|number| u32::try_from(number).ok());
    number.ok_or(Fault::Use(format!("{name} {}: not a number from 0 to {}", shown(word), u32::MAX)))
}

/// A number without a sign, decimal or with 0x before it.
fn unsigned(word: &OsStr) -> Option<u64> {
    let text = word.to_str()?;
    let (digits, radix) = match text.strip_prefix("0x") {
        Some(digits) => (digits, 16),
        None => (text, 10),
    };
    let digits_alone = digits.bytes().all(|digit| digit.is_ascii_alphanumeric());
    u64::from_str_radix(digits, radix).ok().filter(|_| digits_alone)
}
