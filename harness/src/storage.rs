//! An independent reading of elements, written from the written rules alone: view, size, copy, and the choice between two
//! files. Each answer comes with the way to it: the rule that refused, or what was read.

use crate::reader::{Directory, Refusal, Slot, SMALL};
use std::ops::Range;

pub const STORAGE: u64 = 12;
pub const CHAIN: u64 = 13;
pub const NO_TABLE: u64 = 23;
pub const SHORT_TABLE: u64 = 24;
pub const NO_BLOCK: u64 = 25;
pub const SHORT_BLOCK: u64 = 26;
pub const TABLE_LOOP: u64 = 27;

/// The kind of an extended element that is linked blocks.
pub const LINKED: u16 = 1;
/// The tag of tables and blocks.
pub const LINK_TAG: u16 = 20;
pub const MOST_TABLES: usize = 256;

/// How the record of a linked element is laid out, told by its length alone.
#[derive(Clone, Copy, Debug, PartialEq, Eq)]
pub enum Layout {
    /// 22 bytes. The record says how long the first block is, and every block is there.
    Full,
    /// 16 bytes. The first block has a length of its own, and a block may be a hole: it was never written and reads as zeros.
    Sparse,
}

/// How a call came to its answer.
#[derive(Clone, Copy, Debug, PartialEq, Eq)]
pub enum Way {
    Plain,
    Empty,
    Linked,
    LinkedEmpty,
    OneTable,
    Tables,
    MostTables,
    FirstEmpty,
    FirstShorter,
    FirstLonger,
    FirstHole,
    LaterHole,
    OnlyHoles,
    Current,
    CurrentOfBoth,
    Fallback,
    Opening,
    OpeningFallback,
    Absent,
    Unstored,
    UnstoredExtended,
    UnstoredOverPlain,
    UnstoredFallback,
    Extended,
    ExtendedOverPlain,
    ExtendedFallback,
    OtherKind,
    OtherSizeAndKind,
    RecordCut,
    OtherSizeOfFull,
    OtherSizeOfSparse,
    FirstLength,
    BlockLength,
    BlockCount,
    Room,
    TableZero,
    TableAbsent,
    TableUnstored,
    TableExtended,
    TableShort,
    BlockZero,
    BlockAbsent,
    BlockUnstored,
    BlockExtended,
    BlockShort,
    TableTwice,
    TooManyTables,
}

/// A refused call: its answer, with the index of a broken table or block, else 0; and the rule that decided it.
#[derive(Clone, Copy, Debug)]
pub struct Refused {
    pub refusal: Refusal,
    pub index: u64,
    pub way: Way,
}

pub type Reading<T> = Result<(T, Way), Refused>;

/// A directory, or why the image does not open.
pub type Opening = Result<Directory, Refusal>;

/// The record of a linked element, in either layout.
struct Record {
    length: u32,
    /// Given by a full record alone.
    first_length: Option<u32>,
    block_length: u32,
    block_count: u32,
    table: u16,
}

/// A rule that a record, a table or a block breaks: its number, and how it is broken.
type Breach = (u64, Way);

/// Why there is no plain table or block with a reference.
enum NotThere {
    Zero,
    Absent,
    Unstored,
    Extended,
}

/// What is taken from a block: bytes of the image, or so many zeros from a hole.
enum Piece<'a> {
    Bytes(&'a [u8]),
    Zeros(usize),
}

/// A walk through the tables of a linked element: the tables walked, and what was taken from each block.
struct Walk<'a> {
    image: &'a [u8],
    directory: &'a Directory,
    record: Record,
    /// The slot of the element.
    place: u64,
    tables: Vec<u16>,
    pieces: Vec<Piece<'a>>,
    /// How many bytes are still to be taken.
    missing: usize,
}

/// The element's own part of the image, 0..0 where it has no bytes.
pub fn view(opening: &Opening, tag: u16, reference: u16) -> Reading<Range<u64>> {
    plain(opened(opening)?, tag, reference)
}

/// How many bytes a copy of the element has. Of a linked element the record is judged, and the chain is not.
pub fn size(image: &[u8], opening: &Opening, tag: u16, reference: u16) -> Reading<u64> {
    let slot = found(opened(opening)?, tag, reference)?;
    if is_extended(slot) {
        return match read_record(bytes_of(image, slot), slot.place)?.length {
            0 => Ok((0, Way::LinkedEmpty)),
            length => Ok((length.into(), Way::Linked)),
        };
    }
    let part = part_of(slot);
    Ok((part.end - part.start, plain_way(&part)))
}

/// The element's bytes, to go to the front of a room.
pub fn copy(image: &[u8], opening: &Opening, tag: u16, reference: u16, room: usize) -> Reading<Vec<u8>> {
    let directory = opened(opening)?;
    let slot = found(directory, tag, reference)?;
    if is_extended(slot) {
        return copy_extended(image, directory, slot, room);
    }
    let part = part_of(slot);
    judge_room(part.end - part.start, room)?;
    Ok((bytes_of(image, slot).to_vec(), plain_way(&part)))
}

/// Which file the part comes from, 1 or 2, and the part.
pub fn choose(current: &Opening, fallback: &Opening, tag: u16, reference: u16) -> Reading<(u64, Range<u64>)> {
    let first = opened(current)?;
    let second = opened(fallback).map_err(|refused| Refused { way: Way::OpeningFallback, ..refused })?;
    let behind = plain(second, tag, reference);
    if first.slot(tag, reference).is_none() {
        let (part, _) = behind.map_err(|refused| Refused { way: refused.way.in_fallback(), ..refused })?;
        return Ok(((2, part), Way::Fallback));
    }
    match (plain(first, tag, reference), second.slot(tag, reference)) {
        (Ok((part, _)), None) => Ok(((1, part), Way::Current)),
        (Ok((part, _)), Some(_)) => Ok(((1, part), Way::CurrentOfBoth)),
        (Err(refused), _) if behind.is_ok() => Err(Refused { way: refused.way.over_plain(), ..refused }),
        (Err(refused), _) => Err(refused),
    }
}

/// The layout of an extended element's record, where it has the length of one.
pub fn layout(opening: &Opening, tag: u16, reference: u16) -> Option<Layout> {
    let slot = opening.as_ref().ok()?.slot(tag, reference).filter(|slot| is_extended(slot))?;
    let part = part_of(slot);
    Layout::of((part.end - part.start) as usize)
}

pub fn is_extended(slot: &Slot) -> bool {
    slot.tag != slot.base_tag()
}

/// The part of the image, 0..0 where the element has no bytes.
fn part_of(slot: &Slot) -> Range<u64> {
    slot.bytes().unwrap_or(0..0)
}

/// The part of a stored element in plain storage.
fn plain(directory: &Directory, tag: u16, reference: u16) -> Reading<Range<u64>> {
    let slot = found(directory, tag, reference)?;
    if is_extended(slot) {
        return refuse(STORAGE, slot.place, Way::Extended);
    }
    let part = part_of(slot);
    let way = plain_way(&part);
    Ok((part, way))
}

fn opened(opening: &Opening) -> Result<&Directory, Refused> {
    opening.as_ref().map_err(|refusal| Refused { refusal: *refusal, index: 0, way: Way::Opening })
}

/// The slot of the stored element with that base tag and reference.
fn found(directory: &Directory, tag: u16, reference: u16) -> Result<&Slot, Refused> {
    directory.stored(tag, reference).map_err(|refusal| {
        let way = match directory.slot(tag, reference) {
            None => Way::Absent,
            Some(slot) if is_extended(slot) => Way::UnstoredExtended,
            Some(_) => Way::Unstored,
        };
        Refused { refusal, index: 0, way }
    })
}

fn plain_way(part: &Range<u64>) -> Way {
    match part.is_empty() {
        true => Way::Empty,
        false => Way::Plain,
    }
}

fn judge_room(length: u64, room: usize) -> Result<(), Refused> {
    if (room as u64) < length {
        return refuse(SMALL, 0, Way::Room);
    }
    Ok(())
}

/// Record, then room, then chain.
fn copy_extended(image: &[u8], directory: &Directory, slot: &Slot, room: usize) -> Reading<Vec<u8>> {
    let record = read_record(bytes_of(image, slot), slot.place)?;
    judge_room(record.length.into(), room)?;
    let (place, missing) = (slot.place, record.length as usize);
    Walk { image, directory, record, place, tables: Vec::new(), pieces: Vec::new(), missing }.follow()
}

/// The record in an element's bytes, refused at the element's slot.
fn read_record(bytes: &[u8], slot: u64) -> Result<Record, Refused> {
    let record = match Layout::of(bytes.len()) {
        Some(Layout::Full) => read_full(bytes),
        Some(Layout::Sparse) => read_sparse(bytes),
        None => Err(other_size(bytes)),
    };
    record.and_then(judge_record).or_else(|(number, way)| refuse(number, slot, way))
}

fn read_full(bytes: &[u8]) -> Result<Record, Breach> {
    if number32(bytes, 0) != LINKED.into() {
        return Err((STORAGE, Way::OtherKind));
    }
    Ok(Record {
        length: number32(bytes, 4),
        first_length: Some(number32(bytes, 8)),
        block_length: number32(bytes, 12),
        block_count: number32(bytes, 16),
        table: number16(bytes, 20),
    })
}

fn read_sparse(bytes: &[u8]) -> Result<Record, Breach> {
    if number16(bytes, 0) != LINKED {
        return Err((STORAGE, Way::OtherKind));
    }
    Ok(Record {
        length: number32(bytes, 2),
        first_length: None,
        block_length: number32(bytes, 6),
        block_count: number32(bytes, 10),
        table: number16(bytes, 14),
    })
}

/// What a record breaks that has the length of neither layout. Its kind may stand in 16 bits or in 32.
fn other_size(bytes: &[u8]) -> Breach {
    match bytes.len() {
        0..=3 => (CHAIN, Way::RecordCut),
        _ if number16(bytes, 0) == LINKED => (CHAIN, Way::OtherSizeOfSparse),
        _ if number32(bytes, 0) == LINKED.into() => (CHAIN, Way::OtherSizeOfFull),
        _ => (STORAGE, Way::OtherSizeAndKind),
    }
}

fn judge_record(record: Record) -> Result<Record, Breach> {
    match record {
        Record { first_length: Some(0), .. } => Err((CHAIN, Way::FirstLength)),
        Record { block_length: 0, .. } => Err((CHAIN, Way::BlockLength)),
        Record { block_count: 0, .. } => Err((CHAIN, Way::BlockCount)),
        record => Ok(record),
    }
}

impl Way {
    /// The way of a refusal in the fallback.
    fn in_fallback(self) -> Way {
        match self {
            Way::Unstored | Way::UnstoredExtended => Way::UnstoredFallback,
            Way::Extended => Way::ExtendedFallback,
            other => other,
        }
    }

    /// The way of a refusal in today's file where the fallback has a plain element, which does not answer.
    fn over_plain(self) -> Way {
        match self {
            Way::Unstored | Way::UnstoredExtended => Way::UnstoredOverPlain,
            Way::Extended => Way::ExtendedOverPlain,
            other => other,
        }
    }
}

impl Layout {
    /// The layout of a record of so many bytes.
    fn of(size: usize) -> Option<Layout> {
        match size {
            22 => Some(Layout::Full),
            16 => Some(Layout::Sparse),
            _ => None,
        }
    }
}

impl<'a> Walk<'a> {
    /// Follows the tables and takes from their blocks until the length is reached. The first broken one answers.
    fn follow(mut self) -> Reading<Vec<u8>> {
        let mut reference = self.record.table;
        while self.missing > 0 {
            let table = self.table(reference).map_err(|breach| self.broken(breach, self.tables.len()))?;
            self.tables.push(reference);
            reference = number16(table, 0);
            for entry in table[2..].chunks_exact(2).take(self.record.block_count as usize) {
                if self.missing > 0 {
                    let piece = self.block(number16(entry, 0));
                    let piece = piece.map_err(|breach| self.broken(breach, self.pieces.len()))?;
                    self.missing -= piece.len();
                    self.pieces.push(piece);
                }
            }
        }
        let mut bytes = Vec::new();
        self.pieces.iter().for_each(|piece| piece.append_to(&mut bytes));
        Ok((bytes, self.way()))
    }

    /// What a granted walk came through: as many tables as there may be, or holes, or a first block of another length than the
    /// others, or else one table or more.
    fn way(&self) -> Way {
        let Some(first) = self.pieces.first() else { return Way::LinkedEmpty };
        let holes = self.pieces.iter().filter(|piece| piece.is_hole()).count();
        let (blocks, block_length) = (self.pieces.len(), self.record.block_length as usize);
        match first.len() {
            _ if self.tables.len() == MOST_TABLES => Way::MostTables,
            _ if holes == blocks => Way::OnlyHoles,
            _ if first.is_hole() => Way::FirstHole,
            _ if holes > 0 => Way::LaterHole,
            0 => Way::FirstEmpty,
            length if length < block_length && blocks > 1 => Way::FirstShorter,
            length if length > block_length => Way::FirstLonger,
            _ if self.tables.len() == 1 => Way::OneTable,
            _ => Way::Tables,
        }
    }

    /// A whole table: the next reference and all block references. Whether it may come is asked before it is looked up.
    fn table(&self, reference: u16) -> Result<&'a [u8], Breach> {
        if self.tables.contains(&reference) {
            return Err((TABLE_LOOP, Way::TableTwice));
        }
        if self.tables.len() == MOST_TABLES {
            return Err((TABLE_LOOP, Way::TooManyTables));
        }
        let bytes = self.linked(reference).map_err(|fault| (NO_TABLE, fault.of_table()))?;
        if (bytes.len() as u64) < 2 + 2 * u64::from(self.record.block_count) {
            return Err((SHORT_TABLE, Way::TableShort));
        }
        Ok(bytes)
    }

    /// What is taken from the next block: from its front, or zeros from a hole, which is as long as any block.
    fn block(&self, reference: u16) -> Result<Piece<'a>, Breach> {
        let Record { first_length, block_length, .. } = self.record;
        if reference == 0 && first_length.is_none() {
            return Ok(Piece::Zeros(self.missing.min(block_length as usize)));
        }
        let bytes = self.linked(reference).map_err(|fault| (NO_BLOCK, fault.of_block()))?;
        let most = match first_length {
            _ if !self.pieces.is_empty() => block_length as usize,
            Some(length) => length as usize,
            None => bytes.len(),
        };
        bytes.get(..self.missing.min(most)).map(Piece::Bytes).ok_or((SHORT_BLOCK, Way::BlockShort))
    }

    /// The bytes of the table or block with a reference, which must be there, stored and plain.
    fn linked(&self, reference: u16) -> Result<&'a [u8], NotThere> {
        if reference == 0 {
            return Err(NotThere::Zero);
        }
        match self.directory.slot(LINK_TAG, reference) {
            None => Err(NotThere::Absent),
            Some(slot) if slot.is_unstored() => Err(NotThere::Unstored),
            Some(slot) if is_extended(slot) => Err(NotThere::Extended),
            Some(slot) => Ok(bytes_of(self.image, slot)),
        }
    }

    /// The refusal by a table or a block with an index, at the slot of the element.
    fn broken(&self, (number, way): Breach, index: usize) -> Refused {
        Refused { refusal: Refusal { number, place: self.place }, index: index as u64, way }
    }
}

impl Piece<'_> {
    fn len(&self) -> usize {
        match self {
            Piece::Bytes(bytes) => bytes.len(),
            Piece::Zeros(count) => *count,
        }
    }

    fn is_hole(&self) -> bool {
        matches!(self, Piece::Zeros(_))
    }

    fn append_to(&self, all: &mut Vec<u8>) {
        match self {
            Piece::Bytes(bytes) => all.extend(*bytes),
            Piece::Zeros(count) => all.resize(all.len() + count, 0),
        }
    }
}

impl NotThere {
    fn of_table(self) -> Way {
        match self {
            NotThere::Zero => Way::TableZero,
            NotThere::Absent => Way::TableAbsent,
            NotThere::Unstored => Way::TableUnstored,
            NotThere::Extended => Way::TableExtended,
        }
    }

    fn of_block(self) -> Way {
        match self {
            NotThere::Zero => Way::BlockZero,
            NotThere::Absent => Way::BlockAbsent,
            NotThere::Unstored => Way::BlockUnstored,
            NotThere::Extended => Way::BlockExtended,
        }
    }
}

/// The bytes that the slot's element has in the image.
fn bytes_of<'a>(image: &'a [u8], slot: &Slot) -> &'a [u8] {
    match slot.bytes() {
        Some(part) => &image[part.start as usize..part.end as usize],
        None => &[],
    }
}

fn number16(bytes: &[u8], place: usize) -> u16 {
    u16::from_be_bytes([bytes[place], bytes[place + 1]])
}

fn number32(bytes: &[u8], place: usize) -> u32 {
    u32::from_be_bytes([bytes[place], bytes[place + 1], bytes[place + 2], bytes[place + 3]])
}

fn refuse<T>(number: u64, place: u64, way: Way) -> Result<T, Refused> {
    Err(Refused { refusal: Refusal { number, place }, index: 0, way })
}
