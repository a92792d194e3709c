//! A safe interface to the proved HDF4 library: slices in, `Result` out.
//!
//! An image is the bytes of a whole file. Nothing is kept between calls, and nothing is allocated but lists. No call asks
//! anything of its arguments: every input is answered, or refused with an [`Error`] that names the [`Rule`] and the place.
//!
//! [`File`] owns the bytes of a file and keeps its length through edits; it is what most programs want. The functions below work
//! on bytes that are owned elsewhere.
//!
//! # Reading
//!
//! [`open`] judges an image and counts its directory, [`list`] and [`elements`] give its elements, [`find`] the descriptor of
//! one. An element may be named there and not stored yet ([`Element::is_stored`]): what reads it is refused with
//! [`Rule::NotStored`].
//!
//! [`view`] gives an element's own part of the image, [`choose`] that of the first of two images that has the element, and
//! [`copy`] writes its bytes to a buffer, also where the element is of linked blocks; [`size`] tells how long the buffer must be.
//! Where linked blocks are broken the [`CopyError`] says which table or block is, and [`link_reference`] gives the reference of
//! that one.
//!
//! # Records
//!
//! Elements of certain tags are records. [`read_number_type`], [`read_dimension`], [`read_array`], [`read_group`] and
//! [`read_vdata`] read them; the functions named after `pack` write their bytes, to be stored by [`add`] or [`replace`].
//! [`read_value`] gives a value of a Vdata, in either [`ByteOrder`], and [`read_column`] one of each record; [`list_group`] gives
//! all that is below a Vgroup.
//!
//! # Edits
//!
//! [`add`], [`replace`], [`remove`] and [`undo`] take a buffer with an image at its front and the image's length, and give the
//! length of the new image, which then stands at the front of the buffer. The bytes behind it stay as they were, and a refused
//! call alters nothing. Each edit leaves a trailer at the end of the image, so that edits can be undone one after the other,
//! also after the file was stored and read again.
//!
//! Every call names the desk that makes it: any number, and 0 by custom where a file has one desk alone. A desk undoes its own
//! edits: where the newest one is another desk's, [`undo`] is refused with [`Rule::OtherDesk`], and [`newest_desk`] tells whose
//! it is.
//!
//! ```
//! # fn main() -> Result<(), hdf4::Error> {
//! // A file without elements, in a buffer with room for one.
//! let file = b"\x0e\x03\x13\x01\0\0\0\0\0\0";
//! let closure = b"bridge street closed until friday";
//! let mut buffer = vec![0; file.len() + closure.len() + hdf4::EDIT_ROOM];
//! buffer[..file.len()].copy_from_slice(file);
//!
//! // Desk 2 adds the road closure under tag 40000, reference 5.
//! let length = hdf4::add(&mut buffer, file.len(), 2, 40000, 5, closure)?;
//!
//! // Finds it again.
//! let image = &buffer[..length];
//! assert_eq!(hdf4::find(image, 40000, 5)?, 16);
//! assert_eq!(hdf4::view(image, 40000, 5)?, closure);
//!
//! // No other desk takes it back.
//! assert_eq!(hdf4::undo(&mut buffer, length, 1).unwrap_err().rule, hdf4::Rule::OtherDesk);
//!
//! // Desk 2 does: the file is as it was.
//! let length = hdf4::undo(&mut buffer, length, 2)?;
//! assert_eq!(&buffer[..length], file);
//! # Ok(())
//! # }
//! ```
//!
//! The data may not lie in the buffer, nor an output in the image. The compiler sees to it:
//!
//! ```compile_fail,E0502
//! let mut buffer = vec![0; 300];
//! let _ = hdf4::add(&mut buffer, 37, 0, 40000, 5, &buffer[..3]);
//! ```

#![deny(missing_docs)]

mod file;
mod links;
mod records;
mod rule;
mod trailer;
mod vset;

pub use file::{elements, Elements, File};
pub use links::{link_reference, CopyError, Link, Links};
pub use records::{pack_array, pack_dimension, pack_number_type, read_array, read_dimension, read_number_type};
pub use records::{Array, Dimension, NumberType, Pair};
pub use rule::Rule;
pub use trailer::newest_desk;
pub use vset::{base_type, list_group, pack_group, pack_vdata, read_column, read_group, read_value, read_vdata};
pub use vset::{ByteOrder, Column, Field, Group, Kind, Value, Vdata};

pub use hdf4_sys::{EDIT_ROOM, MOST_BYTES, MOST_ELEMENTS, MOST_FIELDS, MOST_PAIRS, VERSION};

use hdf4_sys as ffi;
use std::fmt;

/// A refusal: the rule, and the place of the fault.
#[derive(Clone, Copy, Debug, PartialEq, Eq, Hash)]
pub struct Error {
    /// The rule that is broken.
    pub rule: Rule,
    /// Where, in bytes from the start of the image: the place of a block, a slot or a trailer, or 0.
    pub place: u64,
}

impl Error {
    /// The refusal with a number that the library gave.
    fn new(number: u64, place: u64) -> Error {
        Error { rule: Rule::new(number), place }
    }

    /// The rule's number.
    pub fn number(&self) -> u64 {
        self.rule.number()
    }

    /// The rule's name, as `TOO_LONG`.
    pub fn name(&self) -> &'static str {
        self.rule.name()
    }
}

impl fmt::Display for Error {
    fn fmt(&self, f: &mut fmt::Formatter<'_>) -> fmt::Result {
        write!(f, "{} (number {}, place {})", self.rule, self.number(), self.place)
    }
}

impl std::error::Error for Error {}

/// The counts of an image's directory.
#[derive(Clone, Copy, Debug, PartialEq, Eq)]
pub struct Counts {
    /// Blocks of descriptors.
    pub blocks: usize,
    /// Descriptors in them, the free ones included.
    pub slots: usize,
    /// Descriptors that are not free: elements.
    pub live: usize,
}

/// A live descriptor, as it is stored.
#[derive(Clone, Copy, Debug, PartialEq, Eq)]
pub struct Element {
    /// The tag, from 16384 to 32767 where the element is extended. [`base_tag`] gives its base tag.
    pub tag: u16,
    /// The reference.
    pub reference: u16,
    /// Where the element begins in the image; 4294967295 where it is not stored yet.
    pub offset: u32,
    /// How many bytes it has there; 4294967295 where it is not stored yet.
    pub length: u32,
}

/// Offset and length of an element that is named and not stored yet.
const SET_ASIDE: u32 = u32::MAX;

/// The tag whose elements are empty, whatever their offset and length say.
const MACHINE_TYPE: u16 = 107;

impl Element {
    /// Whether the element is stored.
    ///
    /// libhdf4 names an element before it stores it, and its SD interface leaves one that is never stored in every file with a
    /// data set. Such an element has no bytes. It is found and listed, and what reads it is refused with [`Rule::NotStored`].
    /// [`replace`] stores it, [`remove`] removes it, and [`add`] is refused, since it is there already.
    ///
    /// ```
    /// # fn main() -> Result<(), hdf4::Error> {
    /// // Element 1963/7 is not stored.
    /// let image = b"\x0e\x03\x13\x01\0\x01\0\0\0\0\x07\xab\0\x07\xff\xff\xff\xff\xff\xff\xff\xff";
    /// let mut file = hdf4::File::new(image.to_vec())?;
    /// assert!(file.elements().all(|element| !element.is_stored()));
    /// assert_eq!(file.view(1963, 7).unwrap_err().rule, hdf4::Rule::NotStored);
    /// file.replace(0, 1963, 7, b"snow")?;
    /// assert!(file.elements().all(|element| element.is_stored()));
    /// # Ok(())
    /// # }
    /// ```
    pub fn is_stored(&self) -> bool {
        [self.offset, self.length] != [SET_ASIDE; 2] || base_tag(self.tag) == MACHINE_TYPE
    }
}

/// The base tag of a tag: from 16384 to 32767 the tag less 16384, else the tag itself.
pub fn base_tag(tag: u16) -> u16 {
    if (16384..=32767).contains(&tag) {
        tag - 16384
    } else {
        tag
    }
}

fn granted<T>(number: u64, place: u64, value: T) -> Result<T, Error> {
    if number == 0 {
        Ok(value)
    } else {
        Err(Error::new(number, place))
    }
}

/// Opens an image: the counts of its directory, or the first rule that it breaks.
pub fn open(image: &[u8]) -> Result<Counts, Error> {
    let a = ffi::open(image);
    granted(a.number, a.place, Counts { blocks: a.blocks as usize, slots: a.slots as usize, live: a.live as usize })
}

/// Finds the place of the one live descriptor that has the base tag of a tag and a reference.
pub fn find(image: &[u8], tag: u16, reference: u16) -> Result<usize, Error> {
    let a = ffi::find(image, tag, reference);
    granted(a.number, a.place, a.slot as usize)
}

/// Lists the elements of an image in the order of its directory.
pub fn list(image: &[u8]) -> Result<Vec<Element>, Error> {
    let mut table = vec![0; 4 * MOST_ELEMENTS];
    let a = ffi::list(image, &mut table);
    let count = granted(a.number, a.place, a.elements as usize)?;
    let element = |d: &[u32]| Element { tag: d[0] as u16, reference: d[1] as u16, offset: d[2], length: d[3] };
    Ok(table.chunks_exact(4).take(count).map(element).collect())
}

/// The file of two that an element was chosen from.
#[derive(Clone, Copy, Debug, PartialEq, Eq)]
pub enum Source {
    /// The current file.
    Current,
    /// The file that stands in for what the current one lacks.
    Fallback,
}

/// The part of an image that an answer names.
fn part(image: &[u8], offset: u64, length: u64) -> &[u8] {
    let start = offset as usize;
    &image[start..start + length as usize]
}

/// Gives an element's own part of the image, empty where the element has no bytes. One that is not stored yet is refused, and so
/// is an extended one.
pub fn view(image: &[u8], tag: u16, reference: u16) -> Result<&[u8], Error> {
    let a = ffi::view(image, tag, reference);
    granted(a.number, a.place, ())?;
    Ok(part(image, a.offset, a.length))
}

/// Gives the number of bytes that [`copy`] would write, and so how long its `out` must be. The element is plain or of linked
/// blocks; their record is judged, and their tables and blocks are not: [`copy`] may still refuse these. An element that is not
/// stored yet has no size, and is refused.
///
/// ```
/// # fn main() -> Result<(), hdf4::Error> {
/// // Element 100/1 of eight bytes: table 20/5 names two blocks that were never written.
/// let image = b"\x0e\x03\x13\x01\0\x02\0\0\0\0\x40\x64\0\x01\0\0\0\x22\0\0\0\x10\0\x14\0\x05\0\0\0\x32\0\0\0\x06\
///               \0\x01\0\0\0\x08\0\0\0\x04\0\0\0\x02\0\x05\0\0\0\0\0\0";
/// let mut out = vec![0xee; hdf4::size(image, 100, 1)?];
/// hdf4::copy(image, 100, 1, &mut out)?;
/// assert_eq!(out, [0; 8]);
/// # Ok(())
/// # }
/// ```
pub fn size(image: &[u8], tag: u16, reference: u16) -> Result<usize, Error> {
    let a = ffi::size(image, tag, reference);
    granted(a.number, a.place, a.length as usize)
}

/// Copies an element's bytes to the front of `out` and gives their number; the rest of `out` stays as it was. The element is
/// plain or of linked blocks, of which one that was never written reads as zeros. Where they are broken the refusal says which
/// table or block is. An element that is not stored yet is refused.
pub fn copy(image: &[u8], tag: u16, reference: u16, out: &mut [u8]) -> Result<usize, CopyError> {
    let a = ffi::copy(image, tag, reference, out);
    granted(a.number, a.place, a.length as usize).map_err(|_| CopyError::new(a.number, a.place, a.index))
}

/// Gives an element's own part of the current image or, where that has no such element, of the fallback.
///
/// Both images must open. An element that is not stored yet or extended in the current image is refused, whatever the fallback
/// has.
pub fn choose<'a>(current: &'a [u8], fallback: &'a [u8], tag: u16, reference: u16) -> Result<(Source, &'a [u8]), Error> {
    let a = ffi::choose(current, fallback, tag, reference);
    granted(a.number, a.place, ())?;
    let (source, image) = if a.which == 1 { (Source::Current, current) } else { (Source::Fallback, fallback) };
    Ok((source, part(image, a.offset, a.length)))
}

fn edited(answer: ffi::EditAnswer) -> Result<usize, Error> {
    granted(answer.number, answer.place, answer.length as usize)
}

/// Adds an element to the image in the first `length` bytes of a buffer, for a desk. Gives the new length, at most [`EDIT_ROOM`]
/// and the length of the data above the old one.
///
/// It takes the first free descriptor or, where there is none, one of a new block. The tag is not 0, 1 or 107, and not of the
/// extended form, 16384 to 32767. An element that is not stored yet is there already: [`replace`] stores it.
pub fn add(buffer: &mut [u8], length: usize, desk: u32, tag: u16, reference: u16, data: &[u8]) -> Result<usize, Error> {
    edited(ffi::add(buffer, length as u64, desk, tag, reference, data))
}

/// Gives an element of the image in the first `length` bytes of a buffer other data, its first where it is not stored yet, for a
/// desk. Gives the new length.
pub fn replace(buffer: &mut [u8], length: usize, desk: u32, tag: u16, reference: u16, data: &[u8]) -> Result<usize, Error> {
    edited(ffi::replace(buffer, length as u64, desk, tag, reference, data))
}

/// Removes an element from the image in the first `length` bytes of a buffer, for a desk. Gives the new length: the image grows
/// by a trailer, and keeps the element's bytes for an undo.
pub fn remove(buffer: &mut [u8], length: usize, desk: u32, tag: u16, reference: u16) -> Result<usize, Error> {
    edited(ffi::remove(buffer, length as u64, desk, tag, reference))
}

/// Undoes the newest edit that the image in the first `length` bytes of a buffer carries, for the desk that made it. Gives the
/// length before that edit; the image is then as it was, byte for byte.
///
/// Another desk is refused with [`Rule::OtherDesk`], at the place of the trailer. An edit from before trailers named a desk is
/// desk 0's.
pub fn undo(buffer: &mut [u8], length: usize, desk: u32) -> Result<usize, Error> {
    edited(ffi::undo(buffer, length as u64, desk))
}

#[cfg(test)]
pub(crate) mod tests {
    use super::*;

    /// File A of the format's marked cases: one element, tag 100, reference 1, and a free slot.
    const A: [u8; 37] = *b"\x0e\x03\x13\x01\x00\x02\x00\x00\x00\x00\x00\x64\x00\x01\x00\x00\x00\x22\x00\x00\x00\x03\
                           \x00\x01\x00\x00\x00\x00\x00\x00\x00\x00\x00\x00hub";

    #[test]
    fn a_small_file_opens_and_is_listed() {
        assert_eq!(open(&A), Ok(Counts { blocks: 1, slots: 2, live: 1 }));
        assert_eq!(find(&A, 100, 1), Ok(10));
        assert_eq!(find(&A, 16484, 1), Ok(10));
        assert_eq!(list(&A), Ok(vec![Element { tag: 100, reference: 1, offset: 34, length: 3 }]));
    }

    #[test]
    fn a_refusal_names_its_rule() {
        let absent = find(&A, 100, 2).unwrap_err();
        assert_eq!((absent.rule, absent.name(), absent.number(), absent.place), (Rule::Absent, "ABSENT", 11, 0));
        assert_eq!(open(b"").unwrap_err().rule, Rule::NotHdf);
        assert_eq!(
            open(&A[..10]).unwrap_err().to_string(),
            "DIR_CUT: a block of descriptors is not wholly inside the file (number 3, place 4)"
        );
    }

    #[test]
    fn a_rule_has_its_number_and_its_name() {
        for (number, name, says) in ffi::REFUSALS {
            let rule = Rule::new(number);
            assert_eq!((rule.number(), rule.name(), rule.says()), (number, name, says));
            let spelled = name.replace('_', "").to_lowercase();
            assert_eq!(format!("{rule:?}").to_lowercase(), spelled);
        }
    }

    #[test]
    fn a_number_that_is_not_known_is_a_rule_too() {
        for number in [0, 1000, 1 << 32, u64::MAX] {
            let error = Error::new(number, 7);
            assert_eq!((error.rule, error.number(), error.name()), (Rule::Unknown(number), number, "UNKNOWN"));
            let told = format!("UNKNOWN: a rule that this version does not know (number {number}, place 7)");
            assert_eq!(error.to_string(), told);
        }
    }

    #[test]
    fn the_version_is_that_of_the_library() {
        assert_eq!(VERSION, env!("CARGO_PKG_VERSION"));
    }

    /// Linked element 100/1 of seven bytes: the record at 46, then its table 20/1 and the block 20/2, which both entries name.
    const LINKED: [u8; 80] = *b"\x0e\x03\x13\x01\x00\x03\x00\x00\x00\x00\
                                \x40\x64\x00\x01\x00\x00\x00\x2e\x00\x00\x00\x16\
                                \x00\x14\x00\x01\x00\x00\x00\x44\x00\x00\x00\x06\
                                \x00\x14\x00\x02\x00\x00\x00\x4a\x00\x00\x00\x06\
                                \x00\x00\x00\x01\x00\x00\x00\x07\x00\x00\x00\x04\x00\x00\x00\x05\x00\x00\x00\x02\x00\x01\
                                \x00\x00\x00\x02\x00\x02bypass";

    #[test]
    fn an_element_is_viewed_where_it_lies() {
        let part = view(&A, 100, 1).unwrap();
        assert_eq!(part, b"hub");
        assert_eq!(part.as_ptr(), A[34..].as_ptr());
        assert_eq!(view(&A, 100, 2).unwrap_err().rule, Rule::Absent);
        let extended = view(&LINKED, 100, 1).unwrap_err();
        assert_eq!((extended.rule, extended.number(), extended.place), (Rule::Storage, 12, 10));
    }

    #[test]
    fn a_size_is_told_before_the_chain_is_judged() {
        assert_eq!((size(&A, 100, 1), size(&LINKED, 100, 1), size(&LINKED, 20, 1)), (Ok(3), Ok(7), Ok(6)));
        assert_eq!(rule(size(&A, 100, 2)), (Rule::Absent, 11, 0));
        assert_eq!(rule(size(&A[..36], 100, 1)), (Rule::Outside, 8, 10));
        let mut broken = LINKED;
        broken[73] = 3;
        assert_eq!(size(&broken, 100, 1), Ok(7));
        broken[65] = 0;
        assert_eq!(rule(size(&broken, 100, 1)), (Rule::Chain, 13, 10));
        broken[49] = 3;
        assert_eq!(rule(size(&broken, 100, 1)), (Rule::Storage, 12, 10));
    }

    #[test]
    fn a_plain_and_a_linked_element_are_copied() {
        let mut out = [BEHIND; 9];
        assert_eq!(copy(&A, 100, 1, &mut out), Ok(3));
        assert_eq!(&out, b"hub\xee\xee\xee\xee\xee\xee");
        assert_eq!(copy(&LINKED, 100, 1, &mut out), Ok(7));
        assert_eq!(&out, b"bypabyp\xee\xee");
    }

    #[test]
    fn a_refused_copy_writes_nothing() {
        let mut out = [BEHIND; 6];
        assert_eq!(rule(copy(&A, 100, 1, &mut out[..2])), (Rule::Small, 14, 0));
        assert_eq!(rule(copy(&LINKED, 100, 1, &mut out)), (Rule::Small, 14, 0));
        let mut broken = LINKED;
        broken[73] = 3;
        assert_eq!(rule(copy(&broken, 100, 1, &mut [BEHIND; 7])), (Rule::NoBlock, 25, 10));
        broken[65] = 0;
        assert_eq!(rule(copy(&broken, 100, 1, &mut [BEHIND; 7])), (Rule::Chain, 13, 10));
        broken[49] = 3;
        assert_eq!(rule(copy(&broken, 100, 1, &mut out)), (Rule::Storage, 12, 10));
        assert_eq!(out, [BEHIND; 6]);
    }

    #[test]
    fn the_current_file_comes_before_the_fallback() {
        assert_eq!(choose(&A_ADDED, &A, 100, 1), Ok((Source::Current, &b"hub"[..])));
        assert_eq!(choose(&A, &A_ADDED, 40000, 5), Ok((Source::Fallback, &b"\x2a"[..])));
        assert_eq!(choose(&A, &A_ADDED, 40000, 6).unwrap_err().rule, Rule::Absent);
        assert_eq!(choose(&LINKED, &A, 100, 1).unwrap_err().rule, Rule::Storage);
        assert_eq!(choose(&A, b"", 100, 1).unwrap_err().rule, Rule::NotHdf);
    }

    /// The desk that edits.
    pub const DESK: u32 = 0x0102_0304;

    /// File A after the add of marked case 12: 40000/5 with byte 2a in the second slot, then the trailer.
    const A_ADDED: [u8; 74] = *b"\x0e\x03\x13\x01\x00\x02\x00\x00\x00\x00\x00\x64\x00\x01\x00\x00\x00\x22\x00\x00\x00\x03\
                                 \x9c\x40\x00\x05\x00\x00\x00\x25\x00\x00\x00\x01hub\x2a\
                                 \x00\x00\x00\x16\x00\x00\x00\x0c\x00\x01\x00\x00\x00\x00\x00\x00\x00\x00\x00\x00\
                                 \x00\x00\x00\x25\x00\x00\x00\x00\x01\x02\x03\x04\x42\x41\x43\x32";

    const BEHIND: u8 = 0xee;

    /// File A at the front of a buffer.
    fn lent(capacity: usize) -> Vec<u8> {
        let mut buffer = A.to_vec();
        buffer.resize(capacity, BEHIND);
        buffer
    }

    /// The rule, number and place of a refusal.
    pub fn rule<T: fmt::Debug, E: Into<Error>>(answer: Result<T, E>) -> (Rule, u64, u64) {
        let error: Error = answer.map_err(E::into).unwrap_err();
        (error.rule, error.number(), error.place)
    }

    /// A file of one block with these elements, their slots from 10 on: tag, reference and bytes of each.
    pub fn file_of(elements: &[(u16, u16, &[u8])]) -> Vec<u8> {
        let mut image = b"\x0e\x03\x13\x01".to_vec();
        image.extend((elements.len() as u16).to_be_bytes());
        image.extend([0; 4]);
        let mut offset = image.len() + 12 * elements.len();
        for (tag, reference, bytes) in elements {
            image.extend([tag.to_be_bytes(), reference.to_be_bytes()].concat());
            image.extend([offset, bytes.len()].map(|number| (number as u32).to_be_bytes()).concat());
            offset += bytes.len();
        }
        elements.iter().for_each(|(_, _, bytes)| image.extend(*bytes));
        image
    }

    /// The same file with one of its elements, given by its index, named and not stored.
    pub fn unstored(mut image: Vec<u8>, index: usize) -> Vec<u8> {
        image[10 + 12 * index..][4..12].fill(0xff);
        image
    }

    #[test]
    fn an_element_that_is_not_stored_is_listed_and_not_read() {
        let not_stored = (Rule::NotStored, 29, 22);
        for tag in [200, 16584] {
            let image = unstored(file_of(&[(100, 1, b"hub"), (tag, 7, b"")]), 1);
            assert_eq!(open(&image), Ok(Counts { blocks: 1, slots: 2, live: 2 }));
            assert_eq!(find(&image, 200, 7), Ok(22));
            let element = Element { tag, reference: 7, offset: u32::MAX, length: u32::MAX };
            assert_eq!(list(&image).unwrap()[1], element);
            assert_eq!((rule(view(&image, 200, 7)), rule(size(&image, 200, 7))), (not_stored, not_stored));
            assert_eq!(rule(copy(&image, 200, 7, &mut [])), not_stored);
            assert_eq!(copy(&image, 200, 7, &mut []).unwrap_err().link, None);
            assert_eq!(rule(choose(&image, &file_of(&[(200, 7, b"north")]), 200, 7)), not_stored);
            assert_eq!(choose(&A, &image, 200, 7).unwrap_err().rule, Rule::NotStored);
        }
    }

    #[test]
    fn an_element_is_stored_unless_both_its_fields_are_all_ones() {
        let is_stored = |tag, offset, length| Element { tag, reference: 7, offset, length }.is_stored();
        assert!(!is_stored(200, u32::MAX, u32::MAX) && !is_stored(16584, u32::MAX, u32::MAX));
        assert!(is_stored(200, 34, 3) && is_stored(200, u32::MAX, 0) && is_stored(200, 0, 0));
        // An element of tag 107 is empty.
        for tag in [107, 16491] {
            let image = unstored(file_of(&[(tag, 7, b"")]), 0);
            assert!(list(&image).unwrap()[0].is_stored());
            assert_eq!(size(&image, 107, 7).map_err(|refused| refused.rule), if tag == 107 { Ok(0) } else { Err(Rule::Chain) });
        }
    }

    #[test]
    fn records_that_are_not_stored_are_refused() {
        let records = [106, 300, 701, 1962, 1965].map(|tag| (tag, 7, &b""[..]));
        let image = (0..records.len()).fold(file_of(&records), unstored);
        let not_stored = |index: u64| (Rule::NotStored, 29, 10 + 12 * index);
        assert_eq!(rule(read_number_type(&image, 7)), not_stored(0));
        assert_eq!(rule(read_dimension(&image, 300, 7)), not_stored(1));
        assert_eq!(rule(read_array(&image, 7)), not_stored(2));
        assert_eq!((rule(read_vdata(&image, 7)), rule(read_value(&image, 7, 0, 0, 0))), (not_stored(3), not_stored(3)));
        assert_eq!((rule(read_group(&image, 7)), rule(list_group(&image, 7))), (not_stored(4), not_stored(4)));
    }

    #[test]
    fn two_adds_and_three_undos() {
        let mut buffer = lent(400);
        assert_eq!(add(&mut buffer, 37, DESK, 40000, 5, b"\x2a"), Ok(74));
        assert_eq!(buffer[..74], A_ADDED);
        assert!(buffer[74..].iter().all(|byte| *byte == BEHIND));
        assert_eq!(find(&buffer[..74], 40000, 5), Ok(22));

        assert_eq!(add(&mut buffer, 74, DESK, 40000, 6, b"\x2b"), Ok(309));
        assert_eq!(open(&buffer[..309]), Ok(Counts { blocks: 2, slots: 18, live: 3 }));

        assert_eq!(undo(&mut buffer, 309, DESK), Ok(74));
        assert_eq!(buffer[..74], A_ADDED);
        assert_eq!(undo(&mut buffer, 74, DESK), Ok(37));
        assert_eq!(buffer[..37], A);
        assert_eq!(rule(undo(&mut buffer, 37, DESK)), (Rule::NoEdit, 20, 0));
        assert_eq!(buffer[..37], A);
    }

    #[test]
    fn an_edit_without_room_alters_nothing() {
        let mut buffer = lent(308);
        assert_eq!(add(&mut buffer, 37, DESK, 40000, 5, b"\x2a"), Ok(74));
        let before = buffer.clone();
        assert_eq!(rule(add(&mut buffer, 74, DESK, 40000, 6, b"\x2b")), (Rule::NoRoom, 19, 0));
        assert_eq!(buffer, before);
        assert_eq!(undo(&mut buffer, 74, DESK), Ok(37));
        assert_eq!(buffer[..37], A);
    }

    #[test]
    fn replace_and_remove_are_undone() {
        let mut buffer = lent(37 + 2 * EDIT_ROOM);
        let replaced = replace(&mut buffer, 37, DESK, 100, 1, b"hubs").unwrap();
        assert_eq!(list(&buffer[..replaced]), Ok(vec![Element { tag: 100, reference: 1, offset: 37, length: 4 }]));
        let removed = remove(&mut buffer, replaced, DESK, 100, 1).unwrap();
        assert_eq!(list(&buffer[..removed]), Ok(vec![]));
        assert_eq!(undo(&mut buffer, removed, DESK), Ok(replaced));
        assert_eq!(undo(&mut buffer, replaced, DESK), Ok(37));
        assert_eq!(buffer[..37], A);
    }

    /// An edit of an image of some length, for a desk.
    type Edit = fn(&mut [u8], usize, u32) -> Result<usize, Error>;

    #[test]
    fn a_desk_undoes_its_own_edits_alone() {
        let mut buffer = lent(400);
        let edits: [Edit; 3] = [
            |buffer, length, desk| add(buffer, length, desk, 40000, 5, b"\x2a"),
            |buffer, length, desk| replace(buffer, length, desk, 40000, 5, b"\x2b\x2c"),
            |buffer, length, desk| remove(buffer, length, desk, 100, 1),
        ];
        let desks = [1, u32::MAX, 0];
        let mut lengths = vec![37];
        for (edit, desk) in edits.iter().zip(desks) {
            lengths.push(edit(&mut buffer, lengths[lengths.len() - 1], desk).unwrap());
        }
        assert_eq!(lengths, [37, 74, 112, 148]);
        for (index, desk) in desks.into_iter().enumerate().rev() {
            let (before, length) = (buffer.clone(), lengths[index + 1]);
            assert_eq!(newest_desk(&buffer[..length]), Some(desk));
            for other in desks.into_iter().filter(|other| *other != desk) {
                assert_eq!(rule(undo(&mut buffer, length, other)), (Rule::OtherDesk, 30, length as u64 - 36));
                assert_eq!(buffer, before);
            }
            assert_eq!(undo(&mut buffer, length, desk), Ok(lengths[index]));
        }
        assert_eq!((&buffer[..37], newest_desk(&buffer[..37])), (&A[..], None));
    }

    #[test]
    fn an_edit_from_before_trailers_named_a_desk_is_desk_0s() {
        let mut buffer = [&A_ADDED[..66], b"\x42\x41\x43\x4b"].concat();
        buffer.resize(400, BEHIND);
        let before = buffer.clone();
        assert_eq!(newest_desk(&buffer[..70]), Some(0));
        assert_eq!(rule(undo(&mut buffer, 70, 1)), (Rule::OtherDesk, 30, 38));
        assert_eq!(buffer, before);

        // An edit on top of it leaves a trailer with its desk.
        let removed = remove(&mut buffer, 70, 1, 100, 1).unwrap();
        assert_eq!((removed, newest_desk(&buffer[..removed])), (106, Some(1)));
        assert_eq!(rule(undo(&mut buffer, removed, 0)), (Rule::OtherDesk, 30, 70));
        assert_eq!(undo(&mut buffer, removed, 1), Ok(70));
        assert_eq!(buffer[..70], before[..70]);
        assert_eq!(undo(&mut buffer, 70, 0), Ok(37));
        assert_eq!(buffer[..37], A);
    }

    #[test]
    fn an_element_that_is_not_stored_is_replaced_or_removed_and_not_added() {
        let image = unstored(A.to_vec(), 0);
        let mut buffer = image.clone();
        buffer.resize(37 + EDIT_ROOM, BEHIND);
        assert_eq!(rule(add(&mut buffer, 37, DESK, 100, 1, b"")), (Rule::Present, 18, 0));
        let replaced = replace(&mut buffer, 37, DESK, 100, 1, b"hubs").unwrap();
        assert_eq!(view(&buffer[..replaced], 100, 1), Ok(&b"hubs"[..]));
        assert_eq!(undo(&mut buffer, replaced, DESK), Ok(37));
        assert_eq!(buffer[..37], image);
        let removed = remove(&mut buffer, 37, DESK, 100, 1).unwrap();
        assert_eq!(list(&buffer[..removed]), Ok(vec![]));
        assert_eq!(undo(&mut buffer, removed, DESK), Ok(37));
        assert_eq!(buffer[..37], image);
    }

    #[test]
    fn edits_are_refused_by_their_rules() {
        let mut buffer = lent(400);
        assert_eq!(rule(add(&mut buffer, 37, DESK, 100, 1, b"")), (Rule::Present, 18, 0));
        assert_eq!(rule(add(&mut buffer, 37, DESK, 107, 1, b"")), (Rule::BadTag, 7, 0));
        assert_eq!(rule(replace(&mut buffer, 37, DESK, 100, 2, b"")), (Rule::Absent, 11, 0));
        assert_eq!(rule(remove(&mut buffer, 37, DESK, 16484, 1)), (Rule::BadTag, 7, 0));
        assert_eq!(rule(remove(&mut buffer, 401, DESK, 100, 1)), (Rule::TooLong, 1, 0));
        assert_eq!(rule(undo(&mut buffer, usize::MAX, DESK)), (Rule::TooLong, 1, 0));
        assert_eq!(buffer, lent(400));
    }

    #[test]
    fn a_damaged_trailer_is_refused_at_its_place_to_every_desk() {
        for desk in [DESK, DESK + 1] {
            let mut buffer = A_ADDED.to_vec();
            buffer[38 + 27] = 1;
            let before = buffer.clone();
            let refused = undo(&mut buffer, 74, desk).unwrap_err();
            assert_eq!(refused.to_string(), "BAD_TRAILER: the trailer of the last edit is damaged (number 21, place 38)");
            assert_eq!(buffer, before);
        }
    }
}
