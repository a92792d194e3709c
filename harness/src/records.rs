//! An independent reading of records, written from the written rules alone: number types, dimensions and arrays, and what they
//! have in common with Vgroups and Vdatas. Each answer comes with its cause: the rule that refused, or what was read.

use crate::reader::{Directory, Refusal, ABSENT, SMALL};
use crate::storage::{is_extended, Opening, STORAGE};

pub const RECORD: u64 = 15;
pub const TYPE: u64 = 16;
pub const NO_VALUE: u64 = 17;
pub const DEEP: u64 = 22;

pub const NUMBER_TYPE: u16 = 106;
pub const DIMENSIONS: [u16; 3] = [300, 307, 308];
pub const ARRAY: u16 = 701;

pub const MOST_DIMENSION_INTERLACE: u16 = 2;

/// How a call on records came to its answer.
#[derive(Clone, Copy, Debug, PartialEq, Eq)]
pub enum Cause {
    Whole,
    BytesBehind,
    ByRecord,
    ByField,
    NoRecords,
    NoGroupInside,
    GroupsInside,
    MostNested,
    MostPairs,
    Opening,
    Absent,
    Unstored,
    Extended,
    Length,
    Cut,
    Rank,
    PairCount,
    OddMembers,
    ManyMembers,
    LongName,
    LongClass,
    Interlace,
    Version,
    FieldCount,
    FieldEntries,
    NamesLength,
    Order,
    Type,
    LowFirstType,
    Size,
    Offset,
    RecordSize,
    Record,
    Field,
    Component,
    DataAbsent,
    DataUnstored,
    DataExtended,
    DataShort,
    TableFull,
    TooManyPairs,
    Deep,
    MemberAbsent,
    MemberUnstored,
    MemberExtended,
    MemberBroken,
    FirstRoom,
    SecondRoom,
}

/// A refused call: its answer, and the rule that decided it.
#[derive(Clone, Copy, Debug)]
pub struct Refused {
    pub refusal: Refusal,
    pub cause: Cause,
}

pub type Reading<T> = Result<(T, Cause), Refused>;

/// A rule that the fields of a record break: its number, and which it is.
pub type Breach = (u64, Cause);

/// A record that was read: its fields, where it stands in the image, how long it is up to its last field, and where its names
/// stand in the image.
#[derive(Clone, Debug)]
pub struct Found<T> {
    pub record: T,
    pub place: u64,
    pub length: u64,
    pub names: Vec<u64>,
}

#[derive(Clone, Copy, Debug, PartialEq, Eq)]
pub struct NumberType {
    pub version: u8,
    pub kind: u8,
    pub width: u8,
    pub class: u8,
}

#[derive(Clone, Copy, Debug, PartialEq, Eq)]
pub struct Dimension {
    pub x: u32,
    pub y: u32,
    pub type_tag: u16,
    pub type_ref: u16,
    pub elements: u16,
    pub interlace: u16,
    pub compression_tag: u16,
    pub compression_ref: u16,
}

/// Sizes, then tag and reference of each pair, the data's type first.
#[derive(Clone, Debug, PartialEq, Eq)]
pub struct Array {
    pub sizes: Vec<u32>,
    pub pairs: Vec<u16>,
}

pub fn read_number_type(image: &[u8], opening: &Opening, reference: u16) -> Reading<Found<NumberType>> {
    let element = plain(image, opening, NUMBER_TYPE, reference)?;
    match *element.bytes {
        [version, kind, width, class] => Ok(element.found(NumberType { version, kind, width, class })),
        _ => element.refuse((RECORD, Cause::Length)),
    }
}

pub fn read_dimension(image: &[u8], opening: &Opening, tag: u16, reference: u16) -> Reading<Found<Dimension>> {
    let element = plain(image, opening, tag, reference)?;
    let Some(dimension) = element.exactly(dimension) else { return element.refuse((RECORD, Cause::Length)) };
    match dimension.interlace {
        0..=MOST_DIMENSION_INTERLACE => Ok(element.found(dimension)),
        _ => element.refuse((RECORD, Cause::Interlace)),
    }
}

pub fn read_array(image: &[u8], opening: &Opening, reference: u16, rooms: [usize; 2]) -> Reading<Found<Array>> {
    let element = plain(image, opening, ARRAY, reference)?;
    let Some(array) = element.exactly(array) else { return element.refuse((RECORD, Cause::Length)) };
    if array.sizes.is_empty() {
        return element.refuse((RECORD, Cause::Rank));
    }
    judge_rooms(&[array.sizes.len(), array.pairs.len()], &rooms)?;
    Ok(element.found(array))
}

fn dimension(cursor: &mut Cursor) -> Option<Dimension> {
    Some(Dimension {
        x: cursor.number32()?,
        y: cursor.number32()?,
        type_tag: cursor.number16()?,
        type_ref: cursor.number16()?,
        elements: cursor.number16()?,
        interlace: cursor.number16()?,
        compression_tag: cursor.number16()?,
        compression_ref: cursor.number16()?,
    })
}

fn array(cursor: &mut Cursor) -> Option<Array> {
    let rank = cursor.number16()?.into();
    let sizes: Option<Vec<u32>> = (0..rank).map(|_| cursor.number32()).collect();
    Some(Array { sizes: sizes?, pairs: cursor.numbers16(2 * (rank + 1))? })
}

/// Whether each lent table has room for what goes there.
pub fn judge_rooms(needed: &[usize], rooms: &[usize]) -> Result<(), Refused> {
    match needed.iter().zip(rooms).position(|(needed, room)| room < needed) {
        None => Ok(()),
        Some(0) => refuse(SMALL, 0, Cause::FirstRoom),
        Some(_) => refuse(SMALL, 0, Cause::SecondRoom),
    }
}

/// An element in plain storage: the place of its slot, where it stands in the image, and its bytes.
pub struct Plain<'a> {
    pub slot: u64,
    pub place: u64,
    pub bytes: &'a [u8],
}

/// The stored, plain element with the base tag of `tag` and the reference.
pub fn plain<'a>(image: &'a [u8], opening: &Opening, tag: u16, reference: u16) -> Result<Plain<'a>, Refused> {
    match opening {
        Ok(directory) => plain_in(image, directory, tag, reference),
        Err(refusal) => Err(Refused { refusal: *refusal, cause: Cause::Opening }),
    }
}

pub fn plain_in<'a>(image: &'a [u8], directory: &Directory, tag: u16, reference: u16) -> Result<Plain<'a>, Refused> {
    let slot = directory.stored(tag, reference).map_err(|refusal| {
        let cause = if refusal.number == ABSENT { Cause::Absent } else { Cause::Unstored };
        Refused { refusal, cause }
    })?;
    if is_extended(slot) {
        return refuse(STORAGE, slot.place, Cause::Extended);
    }
    let part = slot.bytes().unwrap_or(0..0);
    Ok(Plain { slot: slot.place, place: part.start, bytes: &image[part.start as usize..part.end as usize] })
}

impl<'a> Plain<'a> {
    pub fn cursor(&self) -> Cursor<'a> {
        Cursor { place: self.place, bytes: self.bytes }
    }

    /// What the whole element says, none of it left over.
    fn exactly<T>(&self, read: fn(&mut Cursor) -> Option<T>) -> Option<T> {
        let mut cursor = self.cursor();
        let record = read(&mut cursor)?;
        cursor.bytes.is_empty().then_some(record)
    }

    /// A record that takes the whole element and has no names.
    fn found<T>(&self, record: T) -> (Found<T>, Cause) {
        let length = self.bytes.len() as u64;
        (Found { record, place: self.place, length, names: Vec::new() }, Cause::Whole)
    }

    /// A refusal at the element's slot.
    pub fn refuse<T>(&self, (number, cause): Breach) -> Result<T, Refused> {
        refuse(number, self.slot, cause)
    }
}

/// The fields of a record that are not read yet, and where they stand in the image.
pub struct Cursor<'a> {
    pub place: u64,
    bytes: &'a [u8],
}

impl<'a> Cursor<'a> {
    pub fn take(&mut self, count: usize) -> Option<&'a [u8]> {
        let (taken, rest) = self.bytes.split_at_checked(count)?;
        self.bytes = rest;
        self.place += count as u64;
        Some(taken)
    }

    pub fn number16(&mut self) -> Option<u16> {
        self.take(2).map(|bytes| u16::from_be_bytes([bytes[0], bytes[1]]))
    }

    pub fn number32(&mut self) -> Option<u32> {
        self.take(4).map(|bytes| u32::from_be_bytes([bytes[0], bytes[1], bytes[2], bytes[3]]))
    }

    pub fn numbers16(&mut self, count: usize) -> Option<Vec<u16>> {
        (0..count).map(|_| self.number16()).collect()
    }

    /// A length and that many bytes, with the place where these stand.
    pub fn name(&mut self) -> Option<(u64, &'a [u8])> {
        let length = self.number16()?;
        let place = self.place;
        Some((place, self.take(length.into())?))
    }
}

pub fn refuse<T>(number: u64, place: u64, cause: Cause) -> Result<T, Refused> {
    Err(Refused { refusal: Refusal { number, place }, cause })
}
