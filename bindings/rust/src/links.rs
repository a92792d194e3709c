//! Elements in linked blocks: which table or block a copy found broken, and what names it.

use crate::{base_tag, find, list, Element, Error, Rule};
use std::collections::HashMap;
use std::{fmt, iter};

/// A table or a block of an element in linked blocks, by its index. Both count from 0, blocks through the whole element.
#[derive(Clone, Copy, Debug, PartialEq, Eq, Hash)]
pub enum Link {
    /// A table: it names the next table and some blocks.
    Table(usize),
    /// A block: it has some of the element's bytes.
    Block(usize),
}

impl Link {
    /// What the index of a refused copy counts, if anything.
    fn of(rule: Rule, index: u64) -> Option<Link> {
        match rule {
            Rule::NoTable | Rule::ShortTable | Rule::TableLoop => Some(Link::Table(index as usize)),
            Rule::NoBlock | Rule::ShortBlock => Some(Link::Block(index as usize)),
            _ => None,
        }
    }
}

/// `table 1` or `block 5`.
impl fmt::Display for Link {
    fn fmt(&self, f: &mut fmt::Formatter<'_>) -> fmt::Result {
        match self {
            Link::Table(index) => write!(f, "table {index}"),
            Link::Block(index) => write!(f, "block {index}"),
        }
    }
}

/// The refusal of a copy: the rule, the place of the fault and, where linked blocks are broken, which table or block it is.
///
/// Where a function gives an [`Error`], `?` makes one of it, with rule and place.
#[derive(Clone, Copy, Debug, PartialEq, Eq, Hash)]
pub struct CopyError {
    /// The rule that is broken.
    pub rule: Rule,
    /// Where, in bytes from the start of the image: the place of the element's slot where its linked blocks are broken.
    pub place: u64,
    /// The first table or block that is broken, in the order of a copy. None by every rule that is about no table and no block.
    pub link: Option<Link>,
}

impl CopyError {
    /// The refusal with a number and an index that the library gave.
    pub(crate) fn new(number: u64, place: u64, index: u64) -> CopyError {
        let rule = Rule::new(number);
        CopyError { rule, place, link: Link::of(rule, index) }
    }

    /// The rule's number.
    pub fn number(&self) -> u64 {
        self.rule.number()
    }

    /// The rule's name, as `NO_BLOCK`.
    pub fn name(&self) -> &'static str {
        self.rule.name()
    }
}

/// As an [`Error`], and the table or block behind the place.
impl fmt::Display for CopyError {
    fn fmt(&self, f: &mut fmt::Formatter<'_>) -> fmt::Result {
        let CopyError { rule, place, link } = self;
        match link {
            Some(link) => write!(f, "{rule} (number {}, place {place}, {link})", self.number()),
            None => Error::from(*self).fmt(f),
        }
    }
}

impl std::error::Error for CopyError {}

impl From<CopyError> for Error {
    fn from(CopyError { rule, place, .. }: CopyError) -> Error {
        Error { rule, place }
    }
}

impl From<Error> for CopyError {
    fn from(Error { rule, place }: Error) -> CopyError {
        CopyError { rule, place, link: None }
    }
}

/// The tables and blocks of an element in linked blocks, as its record and its tables name them, also where some are broken: for
/// who wants to know more of the [`Link`] that a [`CopyError`] gives.
#[derive(Clone)]
pub struct Links<'a> {
    record: Record,
    /// The bytes of each element that can be a table or a block, by its reference.
    parts: HashMap<u16, &'a [u8]>,
}

/// The tag of tables and blocks.
const LINKED_TAG: u16 = 20;
const LINKED_KIND: u32 = 1;

/// The most tables that an element has.
const MOST_TABLES: usize = 256;

/// The lengths of the two layouts of a record, and what tells them apart: the sparse one, as libhdf4 writes it, and the full one,
/// which has the length of block 0.
const SPARSE_BYTES: usize = 16;
const FULL_BYTES: usize = 22;

/// What an extended element has for linked blocks, by a record of either layout.
#[derive(Clone, Copy, Debug)]
struct Record {
    /// Bytes of the element.
    length: u32,
    /// The most bytes that block 0 gives. None in a sparse record: its own element says it, and blocks may never have been
    /// written.
    first: Option<u32>,
    /// The most bytes that each later block gives.
    block: u32,
    /// How many blocks a table names.
    entries: u32,
    /// The reference of table 0.
    table: u16,
}

impl Record {
    /// The record that these bytes are, if they break no rule of it.
    fn read(bytes: &[u8]) -> Option<Record> {
        let kind = LINKED_KIND.to_be_bytes();
        let fields = match bytes.len() {
            SPARSE_BYTES => bytes.strip_prefix(&kind[2..])?,
            FULL_BYTES => bytes.strip_prefix(&kind)?,
            _ => return None,
        };
        let (numbers, table) = fields.as_chunks::<4>();
        let numbers: Vec<u32> = numbers.iter().map(|number| u32::from_be_bytes(*number)).collect();
        let (length, first, block, entries) = match numbers[..] {
            [length, block, entries] => (length, None, block, entries),
            [length, first, block, entries] => (length, Some(first), block, entries),
            _ => return None,
        };
        let table = u16::from_be_bytes(table.try_into().ok()?);
        let holds = first != Some(0) && block != 0 && entries != 0;
        holds.then_some(Record { length, first, block, entries, table })
    }
}

impl<'a> Links<'a> {
    /// Those of the element whose slot is at a place. None where the image does not open, or has no slot there, or one of an
    /// element that is not stored, not in linked blocks, or whose record breaks its layout.
    pub fn of(image: &'a [u8], place: u64) -> Option<Links<'a>> {
        let slot = usize::try_from(place).ok()?;
        let [tag, reference] = [number(image.get(slot..)?, 0)?, number(image.get(slot..)?, 1)?];
        if base_tag(tag) == tag || find(image, tag, reference) != Ok(slot) {
            return None;
        }
        let elements = list(image).ok()?;
        let element = elements.iter().find(|element| (element.tag, element.reference) == (tag, reference))?;
        let record = Record::read(bytes_of(image, element)?)?;
        let linked = elements.iter().filter(|element| element.tag == LINKED_TAG && element.reference != 0);
        let parts = linked.filter_map(|element| Some((element.reference, bytes_of(image, element)?))).collect();
        Some(Links { record, parts })
    }

    /// The references of the tables in order, as far as each names the next, with the 0 of one that names none. At most 257 are
    /// given, of which the last is one too many; where tables repeat they go on so.
    pub fn tables(&self) -> impl Iterator<Item = u16> + '_ {
        let next = |table: &u16| number(self.parts.get(table)?, 0);
        iter::successors(Some(self.record.table), next).take(MOST_TABLES + 1)
    }

    /// The reference that a table or block is named by: 0, or that of an element of tag 20, which may be missing. None where no
    /// table names it.
    pub fn reference(&self, link: Link) -> Option<u16> {
        let entries = self.record.entries as usize;
        match link {
            Link::Table(index) => self.tables().nth(index),
            Link::Block(index) => {
                let table = self.tables().nth(index / entries)?;
                number(self.parts.get(&table)?, 1 + index % entries)
            }
        }
    }

    /// How many bytes a table must have, or a block for what is taken from it: 0 for a block behind the element's end, and for
    /// one that was never written, which reads as zeros.
    pub fn needed(&self, link: Link) -> u64 {
        let Record { length, first, block, entries, .. } = self.record;
        let [length, block] = [length, block].map(u64::from);
        match link {
            Link::Table(_) => 2 + 2 * u64::from(entries),
            Link::Block(_) if first.is_none() && self.reference(link) == Some(0) => 0,
            Link::Block(0) => self.first().min(length),
            Link::Block(index) => {
                let before = block.saturating_mul(index as u64 - 1).saturating_add(self.first());
                block.min(length.saturating_sub(before))
            }
        }
    }

    /// The most bytes that block 0 gives: by the record or, where that does not say it, as many as its own element has, or as
    /// every other block where it was never written.
    fn first(&self) -> u64 {
        match (self.record.first, self.reference(Link::Block(0))) {
            (Some(first), _) => first.into(),
            (None, Some(0)) => self.record.block.into(),
            (None, reference) => reference.and_then(|reference| self.parts.get(&reference)).map_or(0, |part| part.len() as u64),
        }
    }
}

/// The record, and how many elements can be a table or a block; not their bytes, which may be the whole file.
impl fmt::Debug for Links<'_> {
    fn fmt(&self, f: &mut fmt::Formatter<'_>) -> fmt::Result {
        f.debug_struct("Links").field("record", &self.record).field("parts", &self.parts.len()).finish()
    }
}

/// One of the 16-bit numbers that stand one behind the other in bytes.
fn number(bytes: &[u8], index: usize) -> Option<u16> {
    bytes.as_chunks::<2>().0.get(index).map(|number| u16::from_be_bytes(*number))
}

/// The bytes of an element where they stand in the image. None of one that is not stored: no image reaches as far as its offset.
fn bytes_of<'a>(image: &'a [u8], element: &Element) -> Option<&'a [u8]> {
    image.get(element.offset as usize..)?.get(..element.length as usize)
}

/// The reference of a table or block of the element whose slot is at a place, as a refused copy gives both.
///
/// It is 0, or the reference of an element of tag 20, which may be missing. None where there is no such table or block, also
/// where the image does not open or has no such slot.
///
/// ```
/// // Element 100/1 of eight bytes: its record names table 20/5, which is not there.
/// let image = b"\x0e\x03\x13\x01\0\x01\0\0\0\0\x40\x64\0\x01\0\0\0\x16\0\0\0\x16\
///               \0\0\0\x01\0\0\0\x08\0\0\0\x04\0\0\0\x04\0\0\0\x02\0\x05";
/// let refused = hdf4::copy(image, 100, 1, &mut [0; 8]).unwrap_err();
/// let link = refused.link.unwrap();
/// assert_eq!((refused.rule, link), (hdf4::Rule::NoTable, hdf4::Link::Table(0)));
/// assert_eq!(hdf4::link_reference(image, refused.place, link), Some(5));
/// ```
pub fn link_reference(image: &[u8], place: u64, link: Link) -> Option<u16> {
    Links::of(image, place)?.reference(link)
}

#[cfg(test)]
mod tests {
    use super::*;
    use crate::tests::{file_of, unstored};
    use crate::{copy, size, view, File};

    type Elements = Vec<(u16, u16, Vec<u8>)>;

    const PLACE: u64 = 10;
    const EXTENDED: u16 = 16384;

    fn record(length: u32, first: u32, block: u32, entries: u32, table: u16) -> Vec<u8> {
        [&[LINKED_KIND, length, first, block, entries].map(u32::to_be_bytes).concat()[..], &table.to_be_bytes()].concat()
    }

    fn sparse_record(length: u32, block: u32, entries: u32, table: u16) -> Vec<u8> {
        [&[0, 1][..], &[length, block, entries].map(u32::to_be_bytes).concat(), &table.to_be_bytes()].concat()
    }

    fn table(references: &[u16]) -> Vec<u8> {
        references.iter().flat_map(|reference| reference.to_be_bytes()).collect()
    }

    /// Element 100/1 of 17 bytes: tables 20/1 and 20/2 name the blocks 20/11 to 20/14.
    fn elements() -> Elements {
        let mut elements =
            vec![(EXTENDED + 100, 1, record(17, 4, 5, 2, 1)), (20, 1, table(&[2, 11, 12])), (20, 2, table(&[0, 13, 14]))];
        let blocks = [&b"pass"[..], b" road", b" shut", b" up"];
        elements.extend((11..).zip(blocks).map(|(reference, block)| (20, reference, block.to_vec())));
        elements
    }

    /// The same with a sparse record; block 2 was never written.
    fn sparse() -> Elements {
        let mut elements = elements();
        elements[0].2 = sparse_record(17, 5, 2, 1);
        elements[2].2 = table(&[0, 0, 14]);
        elements
    }

    fn image(elements: &Elements) -> Vec<u8> {
        let lent: Vec<(u16, u16, &[u8])> =
            elements.iter().map(|(tag, reference, bytes)| (*tag, *reference, &bytes[..])).collect();
        file_of(&lent)
    }

    /// What copying 100/1 is refused for, and the reference of the table or block that is broken.
    fn broken(elements: &Elements) -> (Rule, Link, Option<u16>) {
        broken_in(image(elements))
    }

    fn broken_in(image: Vec<u8>) -> (Rule, Link, Option<u16>) {
        let refused = copy(&image, 100, 1, &mut [0; 300]).unwrap_err();
        assert_eq!(refused.place, PLACE);
        let link = refused.link.unwrap();
        let reference = link_reference(&image, PLACE, link);
        let file = File::new(image).unwrap();
        assert_eq!((file.copy(100, 1, 300).unwrap_err(), file.link_reference(PLACE, link)), (refused, reference));
        (refused.rule, link, reference)
    }

    /// The same where one of the elements is another.
    fn changed(index: usize, change: impl Fn(&mut (u16, u16, Vec<u8>))) -> (Rule, Link, Option<u16>) {
        changed_of(elements(), index, change)
    }

    fn changed_of(mut elements: Elements, index: usize, change: impl Fn(&mut (u16, u16, Vec<u8>))) -> (Rule, Link, Option<u16>) {
        change(&mut elements[index]);
        broken(&elements)
    }

    #[test]
    fn a_broken_table_is_named() {
        assert_eq!(changed(2, |table| table.1 = 3), (Rule::NoTable, Link::Table(1), Some(2)));
        assert_eq!(changed(2, |table| table.0 += EXTENDED), (Rule::NoTable, Link::Table(1), Some(2)));
        assert_eq!(changed(1, |table| table.2[1] = 0), (Rule::NoTable, Link::Table(1), Some(0)));
        assert_eq!(changed(0, |record| record.2[21] = 0), (Rule::NoTable, Link::Table(0), Some(0)));
        assert_eq!(changed(1, |table| table.2.truncate(5)), (Rule::ShortTable, Link::Table(0), Some(1)));
        assert_eq!(changed(2, |table| table.2.clear()), (Rule::ShortTable, Link::Table(1), Some(2)));
        assert_eq!(changed(1, |table| table.2[1] = 1), (Rule::TableLoop, Link::Table(1), Some(1)));
    }

    #[test]
    fn a_broken_block_is_named_by_its_index_in_the_element() {
        assert_eq!(changed(5, |block| block.1 = 9), (Rule::NoBlock, Link::Block(2), Some(13)));
        assert_eq!(changed(6, |block| block.0 += EXTENDED), (Rule::NoBlock, Link::Block(3), Some(14)));
        assert_eq!(changed(2, |table| table.2[3] = 0), (Rule::NoBlock, Link::Block(2), Some(0)));
        assert_eq!(changed(3, |block| block.2.truncate(3)), (Rule::ShortBlock, Link::Block(0), Some(11)));
        assert_eq!(changed(6, |block| block.2.clear()), (Rule::ShortBlock, Link::Block(3), Some(14)));
    }

    #[test]
    fn what_a_sparse_record_leads_to_is_named() {
        let changed = |index, change: fn(&mut (u16, u16, Vec<u8>))| changed_of(sparse(), index, change);
        assert_eq!(changed(0, |record| record.2[15] = 0), (Rule::NoTable, Link::Table(0), Some(0)));
        assert_eq!(changed(1, |table| table.2[1] = 0), (Rule::NoTable, Link::Table(1), Some(0)));
        assert_eq!(changed(2, |table| table.2.truncate(5)), (Rule::ShortTable, Link::Table(1), Some(2)));
        assert_eq!(changed(3, |block| block.1 = 9), (Rule::NoBlock, Link::Block(0), Some(11)));
        assert_eq!(changed(3, |block| block.0 += EXTENDED), (Rule::NoBlock, Link::Block(0), Some(11)));
        assert_eq!(changed(4, |block| block.2.truncate(4)), (Rule::ShortBlock, Link::Block(1), Some(12)));
        // Block 0 gives what it has, and the later ones so much more.
        assert_eq!(changed(3, |block| block.2.truncate(3)), (Rule::ShortBlock, Link::Block(3), Some(14)));
    }

    #[test]
    fn a_table_or_block_that_is_not_stored_is_named() {
        for elements in [elements(), sparse()] {
            let unstored = |index| broken_in(unstored(image(&elements), index));
            assert_eq!(unstored(1), (Rule::NoTable, Link::Table(0), Some(1)));
            assert_eq!(unstored(2), (Rule::NoTable, Link::Table(1), Some(2)));
            assert_eq!(unstored(3), (Rule::NoBlock, Link::Block(0), Some(11)));
            assert_eq!(unstored(6), (Rule::NoBlock, Link::Block(3), Some(14)));
        }
    }

    #[test]
    fn an_element_that_is_not_stored_has_no_links() {
        let image = unstored(image(&elements()), 0);
        let refused = copy(&image, 100, 1, &mut [0; 300]).unwrap_err();
        assert_eq!((refused.rule, refused.place, refused.link), (Rule::NotStored, PLACE, None));
        assert!(Links::of(&image, PLACE).is_none());
    }

    #[test]
    fn an_element_of_tag_20_and_reference_0_is_no_block_and_no_table() {
        let mut elements = elements();
        elements[2].1 = 0;
        elements[1].2[1] = 0;
        assert_eq!(broken(&elements), (Rule::NoTable, Link::Table(1), Some(0)));
    }

    #[test]
    fn a_257th_table_is_named() {
        let mut elements = vec![(EXTENDED + 100, 1, record(300, 1, 1, 1, 1)), (20, 900, b"a".to_vec())];
        elements.extend((1..=300).map(|reference| (20, reference, table(&[reference + 1, 900]))));
        assert_eq!(broken(&elements), (Rule::TableLoop, Link::Table(256), Some(257)));
        let image = image(&elements);
        assert_eq!(Links::of(&image, PLACE).unwrap().tables().collect::<Vec<u16>>(), (1..=257).collect::<Vec<u16>>());
    }

    #[test]
    fn other_refusals_name_no_table_and_no_block() {
        let image = image(&elements());
        for (tag, room) in [(100, 16), (101, 17)] {
            let refused = copy(&image, tag, 1, &mut vec![0; room]).unwrap_err();
            assert_eq!(refused.link, None);
            assert_eq!(refused.to_string(), Error::from(refused).to_string());
            assert_eq!(CopyError::from(Error::from(refused)), refused);
        }
        let broken = CopyError::new(25, 10, 5);
        let told = "NO_BLOCK: a linked block of the element is not there (number 25, place 10, block 5)";
        assert_eq!((broken.to_string(), broken.link.unwrap().to_string()), (told.to_string(), "block 5".to_string()));
        assert_eq!((broken.number(), broken.name()), (25, "NO_BLOCK"));
        assert_eq!(CopyError::new(24, 10, 0).link.unwrap().to_string(), "table 0");
        assert_eq!(CopyError::new(1000, 10, 5).link, None);
    }

    #[test]
    fn bytes_that_are_needed_are_those_that_the_length_leaves() {
        let image = image(&elements());
        let links = Links::of(&image, PLACE).unwrap();
        assert_eq!(links.tables().collect::<Vec<u16>>(), [1, 2, 0]);
        let record = "Record { length: 17, first: Some(4), block: 5, entries: 2, table: 1 }";
        assert_eq!(format!("{links:?}"), format!("Links {{ record: {record}, parts: 6 }}"));
        let needed = [0, 1, 2, 3, 4, usize::MAX].map(|index| links.needed(Link::Block(index)));
        assert_eq!((needed, links.needed(Link::Table(7))), ([4, 5, 5, 3, 0, 0], 6));
        assert_eq!([0, 3, 4, usize::MAX].map(|index| links.reference(Link::Block(index))), [Some(11), Some(14), None, None]);
        assert_eq!([2, 3, usize::MAX].map(|index| links.reference(Link::Table(index))), [Some(0), None, None]);
    }

    /// What a copy of 100/1 gives, and what is needed of its first five blocks.
    fn copied(elements: &Elements) -> (Vec<u8>, [u64; 5]) {
        let image = image(elements);
        let links = Links::of(&image, PLACE).unwrap();
        let needed = [0, 1, 2, 3, 4].map(|index| links.needed(Link::Block(index)));
        (File::new(image.clone()).unwrap().copy(100, 1, 300).unwrap(), needed)
    }

    #[test]
    fn of_a_block_that_was_never_written_nothing_is_needed() {
        let mut elements = sparse();
        assert_eq!(copied(&elements), (b"pass road\0\0\0\0\0 up".to_vec(), [4, 5, 0, 3, 0]));
        // Block 0 is never written either, and is then as long as every other.
        elements[1].2 = table(&[2, 0, 12]);
        assert_eq!(copied(&elements), (b"\0\0\0\0\0 road\0\0\0\0\0 u".to_vec(), [0, 5, 0, 2, 0]));
        // Block 0 has no bytes, or all of them.
        elements[0].2 = sparse_record(13, 5, 2, 1);
        elements[1].2 = table(&[2, 11, 12]);
        elements[3].2.clear();
        assert_eq!(copied(&elements), (b" road\0\0\0\0\0 up".to_vec(), [0, 5, 0, 3, 0]));
        elements[3].2 = b"pass road shut up".to_vec();
        assert_eq!(copied(&elements), (b"pass road shu".to_vec(), [13, 0, 0, 0, 0]));
    }

    /// Records of either layout, made shorter, longer and other in one byte: they are read where the library takes them, with the
    /// length that it gives.
    #[test]
    fn a_record_is_read_as_the_library_reads_it() {
        let lengths = (1..=FULL_BYTES + 2).flat_map(|length| (0..length).map(move |at| (length, at)));
        for (length, at) in lengths {
            for (sparse, byte) in [(false, 0), (false, 1), (false, 2), (true, 0), (true, 1), (true, 2)] {
                let mut bytes = if sparse { sparse_record(17, 5, 2, 1) } else { record(17, 4, 5, 2, 1) };
                bytes.resize(length, 0);
                bytes[at] = byte;
                let image = image(&vec![(EXTENDED + 100, 1, bytes)]);
                let read = Links::of(&image, PLACE).map(|links| links.record.length as usize);
                assert_eq!(size(&image, 100, 1).ok(), read, "{length} {at} {byte} {sparse}");
            }
        }
    }

    #[test]
    fn any_bytes_are_answered() {
        [elements(), sparse()].iter().for_each(|elements| answered(&image(elements)));
    }

    /// Each byte in turn is another: whatever the image then is, it is answered, and a link that a copy gives has its reference,
    /// and too few bytes where it is short.
    fn answered(sound: &[u8]) {
        for (at, byte) in (0..sound.len()).flat_map(|at| [0, 1, 2, 20, 64, 255].map(|byte| (at, byte))) {
            let mut image = sound.to_vec();
            image[at] = byte;
            if let Err(CopyError { rule, place, link: Some(link) }) = copy(&image, 100, 1, &mut [0; 300]) {
                let reference = link_reference(&image, place, link).expect("a reference");
                let short = view(&image, LINKED_TAG, reference)
                    .is_ok_and(|part| (part.len() as u64) < Links::of(&image, place).unwrap().needed(link));
                assert_eq!(short, [Rule::ShortTable, Rule::ShortBlock].contains(&rule), "{at} {byte}");
            }
            for place in (0..40).chain([sound.len() as u64, u64::MAX]) {
                for link in [0, 3, 256, usize::MAX].into_iter().flat_map(|index| [Link::Table(index), Link::Block(index)]) {
                    link_reference(&image, place, link);
                }
                Links::of(&image, place).map(|links| links.needed(Link::Block(usize::MAX)));
            }
        }
        assert!((0..sound.len()).all(|length| Links::of(&sound[..length], PLACE).is_none()));
        assert!(Links::of(sound, PLACE).is_some() && Links::of(sound, PLACE + 12).is_none());
    }
}
