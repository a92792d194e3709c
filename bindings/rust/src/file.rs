//! A file in memory that owns its bytes, and the elements of an image one by one.

use crate::{base_tag, list_group, open, read_array, read_column, read_dimension, read_group, read_number_type, read_value};
use crate::{
    read_vdata, Array, Column, Counts, Dimension, Element, Error, Group, NumberType, Pair, Rule, Value, Vdata, EDIT_ROOM,
};
use crate::{CopyError, Link};
use std::fmt;
use std::iter::FusedIterator;
use std::vec;

/// A whole file in memory that opens. It owns its bytes, grows where an edit needs room, and keeps its length.
///
/// A file that opens still does so after every edit and every undo: that is proved of the library (`stays-open`). A refused
/// call leaves the bytes as they were.
///
/// ```
/// # fn main() -> Result<(), hdf4::Error> {
/// // A file without elements. One on disk is read by `std::fs::read`.
/// let arrived = b"\x0e\x03\x13\x01\0\0\0\0\0\0";
/// let mut file = hdf4::File::new(arrived.to_vec())?;
///
/// // Desk 1 adds a mark, and desk 2 corrects it.
/// file.add(1, 40000, 5, b"bridge street closed until friday")?;
/// file.replace(2, 40000, 5, b"bridge street closed until sunday")?;
/// assert_eq!(file.view(40000, 5)?, b"bridge street closed until sunday");
/// for element in file.elements() {
///     println!("tag {} ref {}: {} bytes", element.tag, element.reference, element.length);
/// }
///
/// // Both edits are taken back, the last one first, each by its own desk.
/// assert_eq!(file.undo(1).unwrap_err().rule, hdf4::Rule::OtherDesk);
/// file.undo(2)?;
/// file.undo(1)?;
/// assert_eq!(file.bytes(), arrived);
/// assert_eq!(file.undo(1).unwrap_err().rule, hdf4::Rule::NoEdit);
/// # Ok(())
/// # }
/// ```
#[derive(Clone, PartialEq, Eq)]
pub struct File {
    bytes: Vec<u8>,
}

/// Why `counts` and `elements` have no refusal.
const OPENS: &str = "a file that opened opens after every edit";

impl File {
    /// Takes the bytes of a whole file, if they open.
    ///
    /// Refused bytes are dropped. Who wants to keep them asks [`open`] first:
    ///
    /// ```
    /// let bytes = b"a letter".to_vec();
    /// match hdf4::open(&bytes) {
    ///     Ok(_) => println!("{:?}", hdf4::File::new(bytes)),
    ///     Err(refused) => println!("{}: {refused}", bytes.escape_ascii()),
    /// }
    /// ```
    pub fn new(bytes: Vec<u8>) -> Result<File, Error> {
        open(&bytes)?;
        Ok(File { bytes })
    }

    /// The bytes of the file as it stands now, to be stored.
    pub fn bytes(&self) -> &[u8] {
        &self.bytes
    }

    /// Gives the bytes back.
    pub fn into_bytes(self) -> Vec<u8> {
        self.bytes
    }

    /// The counts of the directory.
    pub fn counts(&self) -> Counts {
        open(&self.bytes).expect(OPENS)
    }

    /// The elements, in the order of the directory.
    pub fn elements(&self) -> Elements {
        elements(&self.bytes).expect(OPENS)
    }

    /// The elements that have the base tag of a tag, in the order of the directory.
    ///
    /// ```
    /// # fn main() -> Result<(), hdf4::Error> {
    /// # let mut file = hdf4::File::new(b"\x0e\x03\x13\x01\0\0\0\0\0\0".to_vec())?;
    /// file.add(0, 40000, 5, b"bridge street closed")?;
    /// file.add(0, 40001, 1, b"no road")?;
    /// file.add(0, 40000, 6, b"pass road closed")?;
    /// let references: Vec<u16> = file.elements_of(40000).map(|element| element.reference).collect();
    /// assert_eq!(references, [5, 6]);
    /// # Ok(())
    /// # }
    /// ```
    pub fn elements_of(&self, tag: u16) -> impl Iterator<Item = Element> {
        self.elements().filter(move |element| base_tag(element.tag) == base_tag(tag))
    }

    /// The place of an element's descriptor, as [`find`](crate::find) gives it.
    pub fn find(&self, tag: u16, reference: u16) -> Result<usize, Error> {
        crate::find(&self.bytes, tag, reference)
    }

    /// An element's own part of the file, as [`view`](crate::view) gives it.
    pub fn view(&self, tag: u16, reference: u16) -> Result<&[u8], Error> {
        crate::view(&self.bytes, tag, reference)
    }

    /// How many bytes a copy of an element has, as [`size`](crate::size) gives it.
    pub fn size(&self, tag: u16, reference: u16) -> Result<usize, Error> {
        crate::size(&self.bytes, tag, reference)
    }

    /// An element's bytes, plain or of linked blocks, at most `most` of them.
    ///
    /// An element of linked blocks may be longer than its file, up to 4 GB, since blocks can be named twice or never have been
    /// written: `most` says what the caller will bear. A longer element is refused with [`Rule::Small`], and so is one that
    /// there is no memory for. Where linked blocks are broken the refusal says which table or block is.
    ///
    /// ```
    /// # fn main() -> Result<(), hdf4::Error> {
    /// # let mut file = hdf4::File::new(b"\x0e\x03\x13\x01\0\0\0\0\0\0".to_vec())?;
    /// file.add(0, 40000, 5, b"pass road closed")?;
    /// assert_eq!(file.copy(40000, 5, 1 << 20)?, b"pass road closed");
    /// assert_eq!(file.copy(40000, 5, 9).unwrap_err().rule, hdf4::Rule::Small);
    /// # Ok(())
    /// # }
    /// ```
    pub fn copy(&self, tag: u16, reference: u16, most: usize) -> Result<Vec<u8>, CopyError> {
        let part = match self.view(tag, reference) {
            Err(Error { rule: Rule::Storage, .. }) => return self.copy_linked(tag, reference, most),
            part => part?,
        };
        let mut bytes = reserved(part.len(), most)?;
        bytes.extend_from_slice(part);
        Ok(bytes)
    }

    fn copy_linked(&self, tag: u16, reference: u16, most: usize) -> Result<Vec<u8>, CopyError> {
        let size = self.size(tag, reference)?;
        let mut bytes = reserved(size, most)?;
        bytes.resize(size, 0);
        crate::copy(&self.bytes, tag, reference, &mut bytes)?;
        Ok(bytes)
    }

    /// The reference of a table or block of the element whose slot is at a place, as
    /// [`link_reference`](crate::link_reference) gives it.
    pub fn link_reference(&self, place: u64, link: Link) -> Option<u16> {
        crate::link_reference(&self.bytes, place, link)
    }

    /// Adds an element for a desk, as [`add`](crate::add) does. Where there is no memory for it, [`Rule::NoRoom`] refuses it.
    pub fn add(&mut self, desk: u32, tag: u16, reference: u16, data: &[u8]) -> Result<(), Error> {
        self.edit(data.len() + EDIT_ROOM, |buffer, length| crate::add(buffer, length, desk, tag, reference, data))
    }

    /// Gives an element other data for a desk, as [`replace`](crate::replace) does. Where there is no memory for it,
    /// [`Rule::NoRoom`] refuses it.
    pub fn replace(&mut self, desk: u32, tag: u16, reference: u16, data: &[u8]) -> Result<(), Error> {
        self.edit(data.len() + EDIT_ROOM, |buffer, length| crate::replace(buffer, length, desk, tag, reference, data))
    }

    /// Removes an element for a desk, as [`remove`](crate::remove) does. The file gets longer by a trailer.
    pub fn remove(&mut self, desk: u32, tag: u16, reference: u16) -> Result<(), Error> {
        self.edit(EDIT_ROOM, |buffer, length| crate::remove(buffer, length, desk, tag, reference))
    }

    /// Undoes the newest edit for the desk that made it, as [`undo`](crate::undo) does: also one that was made before the file
    /// was stored and read again.
    pub fn undo(&mut self, desk: u32) -> Result<(), Error> {
        self.edit(0, |buffer, length| crate::undo(buffer, length, desk))
    }

    /// The desk that made the newest edit, as [`newest_desk`](crate::newest_desk) gives it.
    pub fn newest_desk(&self) -> Option<u32> {
        crate::newest_desk(&self.bytes)
    }

    /// Lends the bytes with room behind them to an edit, and keeps the length that it gives.
    fn edit(&mut self, room: usize, edit: impl FnOnce(&mut [u8], usize) -> Result<usize, Error>) -> Result<(), Error> {
        let length = self.bytes.len();
        let reserved = self.bytes.try_reserve(room).or_else(|_| self.bytes.try_reserve_exact(room));
        // Without memory nothing is lent behind the file, and the edit says itself which rule refuses it.
        if reserved.is_ok() {
            self.bytes.resize(length + room, 0);
        }
        let edited = edit(&mut self.bytes, length);
        self.bytes.truncate(edited.unwrap_or(length));
        edited.map(drop)
    }

    /// Reads a number type, as [`read_number_type`] does.
    pub fn number_type(&self, reference: u16) -> Result<NumberType, Error> {
        read_number_type(&self.bytes, reference)
    }

    /// Reads a dimension, as [`read_dimension`] does.
    pub fn dimension(&self, tag: u16, reference: u16) -> Result<Dimension, Error> {
        read_dimension(&self.bytes, tag, reference)
    }

    /// Reads an array, as [`read_array`] does.
    pub fn array(&self, reference: u16) -> Result<Array, Error> {
        read_array(&self.bytes, reference)
    }

    /// Reads a Vgroup, as [`read_group`] does.
    pub fn group(&self, reference: u16) -> Result<Group<'_>, Error> {
        read_group(&self.bytes, reference)
    }

    /// Lists all that is below a Vgroup, as [`list_group`] does.
    pub fn below_group(&self, reference: u16) -> Result<Vec<Pair>, Error> {
        list_group(&self.bytes, reference)
    }

    /// Reads the head of a Vdata, as [`read_vdata`] does.
    pub fn vdata(&self, reference: u16) -> Result<Vdata<'_>, Error> {
        read_vdata(&self.bytes, reference)
    }

    /// Reads one value of a Vdata, as [`read_value`] does. All indices count from 0.
    pub fn value(&self, reference: u16, record: usize, field: usize, component: usize) -> Result<Value, Error> {
        read_value(&self.bytes, reference, record, field, component)
    }

    /// Reads one component of one field in every record of a Vdata, as [`read_column`] does.
    pub fn column<'a>(&self, reference: u16, field: usize, component: usize, out: &'a mut [u64]) -> Result<Column<'a>, Error> {
        read_column(&self.bytes, reference, field, component, out)
    }
}

/// Memory for a copy of so many bytes, if they are not more than the caller will bear.
fn reserved(size: usize, most: usize) -> Result<Vec<u8>, CopyError> {
    let mut bytes = Vec::new();
    if size > most || bytes.try_reserve_exact(size).is_err() {
        return Err(CopyError { rule: Rule::Small, place: 0, link: None });
    }
    Ok(bytes)
}

/// The bytes, so that every function that takes an image takes a file.
impl AsRef<[u8]> for File {
    fn as_ref(&self) -> &[u8] {
        &self.bytes
    }
}

impl TryFrom<Vec<u8>> for File {
    type Error = Error;

    fn try_from(bytes: Vec<u8>) -> Result<File, Error> {
        File::new(bytes)
    }
}

impl From<File> for Vec<u8> {
    fn from(file: File) -> Vec<u8> {
        file.into_bytes()
    }
}

/// The length and the counts, not the bytes.
impl fmt::Debug for File {
    fn fmt(&self, f: &mut fmt::Formatter<'_>) -> fmt::Result {
        f.debug_struct("File").field("length", &self.bytes.len()).field("counts", &self.counts()).finish()
    }
}

/// The elements of an image, in the order of its directory. [`elements`] gives one.
#[derive(Clone, Debug)]
pub struct Elements(vec::IntoIter<Element>);

/// Gives the elements of an image one by one, in the order of its directory.
///
/// ```
/// # fn main() -> Result<(), hdf4::Error> {
/// let image = b"\x0e\x03\x13\x01\0\0\0\0\0\0";
/// assert_eq!(hdf4::elements(image)?.count(), 0);
/// # Ok(())
/// # }
/// ```
pub fn elements(image: &[u8]) -> Result<Elements, Error> {
    Ok(Elements(crate::list(image)?.into_iter()))
}

impl Iterator for Elements {
    type Item = Element;

    fn next(&mut self) -> Option<Element> {
        self.0.next()
    }

    fn size_hint(&self) -> (usize, Option<usize>) {
        self.0.size_hint()
    }
}

impl DoubleEndedIterator for Elements {
    fn next_back(&mut self) -> Option<Element> {
        self.0.next_back()
    }
}

impl ExactSizeIterator for Elements {}

impl FusedIterator for Elements {}

/// `for element in &file`.
impl IntoIterator for &File {
    type Item = Element;
    type IntoIter = Elements;

    fn into_iter(self) -> Elements {
        self.elements()
    }
}

#[cfg(test)]
mod tests {
    use super::*;
    use crate::tests::{file_of, rule, DESK};

    fn file() -> File {
        File::new(file_of(&[(100, 1, b"hub"), (720, 9, b""), (100, 2, b"north")])).unwrap()
    }

    #[test]
    fn only_what_opens_is_a_file() {
        assert_eq!(rule(File::new(b"a letter".to_vec())), (Rule::NotHdf, 2, 0));
        assert_eq!(rule(File::try_from(Vec::new())), (Rule::NotHdf, 2, 0));
        let bytes = file_of(&[(100, 1, b"hub")]);
        let file = File::new(bytes.clone()).unwrap();
        assert_eq!((file.bytes(), file.as_ref()), (&bytes[..], &bytes[..]));
        assert_eq!(format!("{file:?}"), "File { length: 25, counts: Counts { blocks: 1, slots: 1, live: 1 } }");
        assert_eq!(Vec::from(file), bytes);
    }

    #[test]
    fn elements_come_in_the_order_of_the_directory() {
        let file = file();
        let pair = |element: Element| (element.tag, element.reference);
        assert_eq!(file.elements().map(pair).collect::<Vec<_>>(), [(100, 1), (720, 9), (100, 2)]);
        assert_eq!(file.elements().rev().map(pair).next(), Some((100, 2)));
        assert_eq!((file.elements().len(), file.counts().live), (3, 3));
        assert_eq!(file.elements_of(100).map(pair).collect::<Vec<_>>(), [(100, 1), (100, 2)]);
        assert_eq!(file.elements_of(16484).count(), 2);
        assert_eq!(file.elements_of(5).count(), 0);
        assert_eq!((&file).into_iter().collect::<Vec<_>>(), crate::list(file.bytes()).unwrap());
        assert_eq!(rule(elements(b"a letter")), (Rule::NotHdf, 2, 0));
    }

    #[test]
    fn elements_are_found_viewed_and_copied() {
        let file = file();
        assert_eq!(file.find(100, 2), Ok(34));
        assert_eq!(file.view(100, 2), Ok(&b"north"[..]));
        assert_eq!((file.size(100, 2), file.size(720, 9)), (Ok(5), Ok(0)));
        assert_eq!(rule(file.size(100, 3)), (Rule::Absent, 11, 0));
        assert_eq!(file.copy(100, 2, 5), Ok(b"north".to_vec()));
        assert_eq!(file.copy(720, 9, 0), Ok(vec![]));
        assert_eq!(rule(file.copy(100, 2, 4)), (Rule::Small, 14, 0));
        assert_eq!(rule(file.copy(100, 3, 4)), (Rule::Absent, 11, 0));
    }

    /// A linked element of 12,000 bytes in a shorter file: one table names its one block 300 times.
    fn linked() -> File {
        let numbers = [1, 12000, 40, 40, 300].map(|number: u32| number.to_be_bytes()).concat();
        let record = [&numbers[..], b"\0\x01"].concat();
        let table = [&b"\0\0"[..], &b"\0\x02".repeat(300)].concat();
        File::new(file_of(&[(16484, 1, &record), (20, 1, &table), (20, 2, &[b'a'; 40])])).unwrap()
    }

    /// A file that libhdf4 wrote, whose SD interface left the values of a Vdata without records, 1963/7, not stored.
    #[test]
    fn a_real_file_has_an_element_that_is_not_stored() {
        let bytes = std::fs::read(concat!(env!("CARGO_MANIFEST_DIR"), "/../../harness/files/mixed.hdf")).unwrap();
        let mut file = File::new(bytes.clone()).unwrap();
        let unstored = |file: &File| file.elements().filter(|element| !element.is_stored()).collect::<Vec<Element>>();
        let [element] = unstored(&file)[..] else { panic!("{:?}", unstored(&file)) };
        assert_eq!((element.tag, element.reference, file.find(1963, 7)), (1963, 7, Ok(142)));
        let not_stored = (Rule::NotStored, 29, 142);
        assert_eq!((rule(file.view(1963, 7)), rule(file.copy(1963, 7, 100))), (not_stored, not_stored));
        assert_eq!((rule(file.size(1963, 7)), file.vdata(7).unwrap().records), (not_stored, 0));
        assert_eq!(rule(file.add(DESK, 1963, 7, b"snow")), (Rule::Present, 18, 0));
        file.replace(DESK, 1963, 7, b"snow").unwrap();
        assert_eq!((file.view(1963, 7), unstored(&file)), (Ok(&b"snow"[..]), vec![]));
        file.undo(DESK).unwrap();
        file.remove(DESK, 1963, 7).unwrap();
        assert_eq!((rule(file.view(1963, 7)), file.counts().live), ((Rule::Absent, 11, 0), 20));
        file.undo(DESK).unwrap();
        assert_eq!(file.bytes(), bytes);
    }

    #[test]
    fn a_linked_element_is_copied_also_where_it_is_longer_than_its_file() {
        let file = linked();
        assert!(file.bytes().len() < 1000);
        assert_eq!(rule(file.view(100, 1)), (Rule::Storage, 12, 10));
        assert_eq!(file.size(100, 1), Ok(12000));
        for most in [12000, 12001, usize::MAX] {
            assert_eq!(file.copy(100, 1, most), Ok(vec![b'a'; 12000]));
        }
        for most in [0, 700, 11999] {
            assert_eq!(rule(file.copy(100, 1, most)), (Rule::Small, 14, 0));
        }
    }

    #[test]
    fn edits_keep_the_length_and_are_undone() {
        let mut file = file();
        let mut stood = vec![file.clone()];
        file.add(DESK, 40000, 5, &[7; 1000]).unwrap();
        stood.push(file.clone());
        file.replace(DESK, 100, 1, b"hubs").unwrap();
        stood.push(file.clone());
        file.remove(DESK, 100, 2).unwrap();
        assert_eq!((file.counts().live, file.view(100, 1), file.view(40000, 5)), (3, Ok(&b"hubs"[..]), Ok(&[7; 1000][..])));
        for before in stood.iter().rev() {
            file.undo(DESK).unwrap();
            assert_eq!(&file, before);
        }
        assert_eq!(rule(file.undo(DESK)), (Rule::NoEdit, 20, 0));
        assert_eq!(file, stood[0]);
    }

    #[test]
    fn each_desk_undoes_its_own_edits() {
        let mut file = file();
        let before = file.clone();
        file.add(1, 40000, 5, b"closed").unwrap();
        file.remove(2, 100, 2).unwrap();
        let (edited, trailer) = (file.clone(), file.bytes().len() as u64 - 36);
        assert_eq!((rule(file.undo(1)), file.newest_desk()), ((Rule::OtherDesk, 30, trailer), Some(2)));
        assert_eq!(file, edited);
        file.undo(2).unwrap();
        assert_eq!(file.newest_desk(), Some(1));
        file.undo(1).unwrap();
        assert_eq!((&file, file.newest_desk()), (&before, None));
    }

    #[test]
    fn edits_outlast_the_file_that_made_them() {
        let mut file = file();
        let before = file.bytes().to_vec();
        file.remove(DESK, 720, 9).unwrap();
        let mut stored = File::new(file.into_bytes()).unwrap();
        stored.undo(DESK).unwrap();
        assert_eq!(stored.bytes(), before);
    }

    #[test]
    fn a_refused_edit_leaves_the_file_as_it_was() {
        let mut file = file();
        let before = file.clone();
        assert_eq!(rule(file.add(DESK, 100, 1, b"again")), (Rule::Present, 18, 0));
        assert_eq!(rule(file.add(DESK, 107, 1, b"")), (Rule::BadTag, 7, 0));
        assert_eq!(rule(file.replace(DESK, 100, 3, b"")), (Rule::Absent, 11, 0));
        assert_eq!(rule(file.remove(DESK, 100, 3)), (Rule::Absent, 11, 0));
        assert_eq!(rule(file.undo(DESK)), (Rule::NoEdit, 20, 0));
        assert_eq!(file, before);
    }

    #[test]
    fn without_memory_an_edit_is_refused() {
        let mut file = file();
        let before = file.clone();
        assert_eq!(
            rule(file.edit(usize::MAX, |buffer, length| crate::add(buffer, length, DESK, 40000, 5, b"a"))),
            (Rule::NoRoom, 19, 0)
        );
        let refused = file.edit(usize::MAX, |buffer, length| crate::add(buffer, length, DESK, 100, 1, b"a"));
        assert_eq!(rule(refused), (Rule::Present, 18, 0));
        assert_eq!(file, before);
    }

    #[test]
    fn records_are_read() {
        let group = b"\0\x01\x07\xaa\0\x03\0\x05north\0\0\0\0\0\0\0\x03\0\0";
        let file = File::new(file_of(&[(106, 1, b"\x01\x18\x20\x01"), (1965, 2, group)])).unwrap();
        assert_eq!(file.number_type(1), read_number_type(file.bytes(), 1));
        assert_eq!(file.group(2).unwrap().name, b"north");
        assert_eq!(file.below_group(2), Ok(vec![Pair { tag: 1962, reference: 3 }]));
        assert_eq!(rule(file.array(1)), (Rule::Absent, 11, 0));
        assert_eq!(rule(file.dimension(300, 1)), (Rule::Absent, 11, 0));
        assert_eq!(rule(file.vdata(1)), (Rule::Absent, 11, 0));
        assert_eq!(rule(file.value(1, 0, 0, 0)), (Rule::Absent, 11, 0));
    }
}
