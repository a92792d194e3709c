//! `files/contents.txt`, read line by line. `files/README.md` says what the lines mean.

use crate::files;
use hdf4_sys::{FLOAT32, FLOAT64, SIGNED, UNSIGNED};
use std::collections::BTreeMap;
use std::str::FromStr;

/// What is recorded of a file, in the order of its directory.
#[derive(Default)]
pub struct Contents {
    pub elements: Vec<Element>,
    pub groups: Vec<Group>,
    pub vdatas: Vec<Vdata>,
}

pub struct Element {
    /// Without the mark of extended storage.
    pub tag: u16,
    pub reference: u16,
    pub storage: Storage,
}

/// How an element is stored: with the bytes that were read of it, or the kind of storage that is not read here.
pub enum Storage {
    Plain(Vec<u8>),
    Linked(Vec<u8>),
    Special(u16),
    Unstored,
}

pub struct Group {
    pub reference: u16,
    pub version: u64,
    pub name: String,
    pub class: String,
    /// Tag and reference of each member.
    pub members: Vec<u16>,
}

pub struct Vdata {
    pub reference: u16,
    pub version: u64,
    pub interlace: u64,
    pub records: u64,
    pub record_size: u64,
    pub name: String,
    pub class: String,
    pub fields: Vec<Field>,
    /// The values of each record; there is none where they are not stored plainly.
    pub values: Vec<Vec<Value>>,
}

pub struct Field {
    pub code: u16,
    pub order: u16,
    pub size: u16,
    pub name: String,
}

/// A value: whether it is a signed or unsigned number or a float, and its bits.
pub struct Value {
    pub kind: u64,
    pub bits: u64,
}

/// What is recorded of each file, by its name.
pub fn read_all() -> Result<BTreeMap<String, Contents>, String> {
    let mut files: BTreeMap<String, Contents> = BTreeMap::new();
    for line in files::lines("contents.txt")? {
        read_line(&line, &mut files).ok_or(format!("contents.txt: {line}"))?;
    }
    Ok(files)
}

fn read_line(line: &str, files: &mut BTreeMap<String, Contents>) -> Option<()> {
    let words = words_of(line);
    let [file, kind, words @ ..] = words.as_slice() else { return None };
    files.entry((*file).into()).or_default().take(kind, words)
}

/// The words of a line. What stands in quotes is one word.
fn words_of(line: &str) -> Vec<&str> {
    let mut words = Vec::new();
    for (index, part) in line.split('"').enumerate() {
        match index % 2 {
            0 => words.extend(part.split_whitespace()),
            _ => words.push(part),
        }
    }
    words
}

impl Contents {
    fn take(&mut self, kind: &str, words: &[&str]) -> Option<()> {
        match kind {
            "group" => self.groups.push(Group::read(words)?),
            "vdata" => self.vdatas.push(Vdata::read(words)?),
            "field" => self.last_vdata(words)?.fields.push(Field::read(words)?),
            "record" => self.last_vdata(words)?.values.push(values_of(words)?),
            _ => self.elements.push(Element::read(kind, words)?),
        }
        Some(())
    }

    /// The Vdata that a line about a field or a record names, which is the last one.
    fn last_vdata(&mut self, words: &[&str]) -> Option<&mut Vdata> {
        let reference: u16 = number(words.first()?)?;
        self.vdatas.last_mut().filter(|vdata| vdata.reference == reference)
    }

    /// The references of the elements of a tag that are stored.
    pub fn stored(&self, tag: u16) -> Vec<u16> {
        let stored = self.elements.iter().filter(|element| element.tag == tag && !element.is_unstored());
        stored.map(|element| element.reference).collect()
    }

    /// How an element is stored, if there is one.
    pub fn storage(&self, tag: u16, reference: u16) -> Option<&Storage> {
        let mut elements = self.elements.iter();
        let found = elements.find(|element| (element.tag, element.reference) == (tag, reference));
        found.map(|element| &element.storage)
    }
}

impl Element {
    fn read(kind: &str, words: &[&str]) -> Option<Element> {
        let [tag, reference, rest @ ..] = words else { return None };
        let storage = match (kind, rest) {
            ("plain", [length, digits @ ..]) => Storage::Plain(bytes_of(length, digits)?),
            ("linked", [length, digits @ ..]) => Storage::Linked(bytes_of(length, digits)?),
            ("special", [kind]) => Storage::Special(number(kind)?),
            ("unstored", []) => Storage::Unstored,
            _ => return None,
        };
        Some(Element { tag: number(tag)?, reference: number(reference)?, storage })
    }

    pub fn is_unstored(&self) -> bool {
        matches!(self.storage, Storage::Unstored)
    }
}

impl Group {
    fn read(words: &[&str]) -> Option<Group> {
        let [reference, version, name, class, members @ ..] = words else { return None };
        let members = members.iter().flat_map(|member| member.split('/')).map(number);
        Some(Group {
            reference: number(reference)?,
            version: number(version)?,
            name: (*name).into(),
            class: (*class).into(),
            members: members.collect::<Option<_>>()?,
        })
    }
}

impl Vdata {
    fn read(words: &[&str]) -> Option<Vdata> {
        let [reference, version, interlace, records, record_size, name, class] = words else { return None };
        Some(Vdata {
            reference: number(reference)?,
            version: number(version)?,
            interlace: number(interlace)?,
            records: number(records)?,
            record_size: number(record_size)?,
            name: (*name).into(),
            class: (*class).into(),
            fields: Vec::new(),
            values: Vec::new(),
        })
    }
}

impl Field {
    fn read(words: &[&str]) -> Option<Field> {
        let [_, code, order, size, name] = words else { return None };
        Some(Field { code: number(code)?, order: number(order)?, size: number(size)?, name: (*name).into() })
    }
}

impl Value {
    fn read(word: &str) -> Option<Value> {
        let (letter, digits) = word.split_at_checked(1)?;
        let (kind, bits) = match letter {
            "i" => (SIGNED, number::<i64>(digits)? as u64),
            "u" => (UNSIGNED, number(digits)?),
            "f" => (FLOAT32, u64::from_str_radix(digits, 16).ok()?),
            "d" => (FLOAT64, u64::from_str_radix(digits, 16).ok()?),
            _ => return None,
        };
        Some(Value { kind, bits })
    }
}

/// The values of a line about a record, behind its reference.
fn values_of(words: &[&str]) -> Option<Vec<Value>> {
    words.iter().skip(1).map(|word| Value::read(word)).collect()
}

/// Bytes of a length, in one word of digits; in none where there are no bytes.
fn bytes_of(length: &str, digits: &[&str]) -> Option<Vec<u8>> {
    let (length, digits): (usize, String) = (number(length)?, digits.concat());
    let byte = |at: usize| u8::from_str_radix(digits.get(2 * at..2 * at + 2)?, 16).ok();
    let bytes: Option<Vec<u8>> = (0..length).map(byte).collect();
    bytes.filter(|_| digits.len() == 2 * length)
}

fn number<T: FromStr>(word: &str) -> Option<T> {
    word.parse().ok()
}
