//! How an element is stored: plainly, or in one of the ways that the record of an extended element names.

use crate::tags::MACHINE_TYPE;
use crate::words::Pair;
use hdf4::{base_tag, Element};

/// What the record of an extended element begins with, in libhdf4's numbers.
const LINKED: u32 = 1;
const EXTERNAL: u32 = 2;
const PACKED: u32 = 3;
const CHUNKED: u32 = 5;

/// How many bytes the record of linked blocks has: as libhdf4 writes it, and with the length of the first block.
const SPARSE_RECORD: usize = 16;
const FULL_RECORD: usize = 22;

#[derive(Clone, Copy, Debug, PartialEq)]
pub enum Storage {
    Plain,
    /// Named in the directory, and no more.
    NotStored,
    /// In linked blocks.
    Linked,
    Packed,
    Chunked,
    /// In another file.
    External,
    /// By a record of another kind, or one that is too short to name a kind.
    Unknown,
}

impl Storage {
    /// How an element of an image that opens is stored.
    pub fn of(image: &[u8], element: &Element) -> Storage {
        if !element.is_stored() {
            return Storage::NotStored;
        }
        if base_tag(element.tag) == element.tag {
            return Storage::Plain;
        }
        match kind(bytes_of(image, element)) {
            Some(LINKED) => Storage::Linked,
            Some(EXTERNAL) => Storage::External,
            Some(PACKED) => Storage::Packed,
            Some(CHUNKED) => Storage::Chunked,
            _ => Storage::Unknown,
        }
    }

    /// One word for a list.
    pub fn word(self) -> &'static str {
        match self {
            Storage::Plain => "plain",
            Storage::NotStored => "not stored",
            Storage::Linked => "linked",
            Storage::Packed => "packed",
            Storage::Chunked => "chunked",
            Storage::External => "external",
            Storage::Unknown => "unknown",
        }
    }
}

/// How many bytes an element has: those that its slot names or, where it is extended, those of what its record describes, as far
/// as the record tells. None where it is not stored.
pub fn own_length(image: &[u8], element: &Element) -> Option<u64> {
    let record = bytes_of(image, element);
    let long = |place: usize| number::<4>(record, place).map(|bytes| u64::from(u32::from_be_bytes(bytes)));
    match Storage::of(image, element) {
        Storage::Plain => Some(record.len() as u64),
        Storage::Linked if record.len() == SPARSE_RECORD => long(2),
        Storage::Linked if record.len() == FULL_RECORD => long(4),
        Storage::External => long(2),
        Storage::Packed => long(4),
        // How many numbers there are, and how many bytes each has.
        Storage::Chunked => Some(long(11)? * long(19)?),
        Storage::Linked | Storage::NotStored | Storage::Unknown => None,
    }
}

/// What an element is found by: its base tag and its reference.
pub fn pair_of(element: &Element) -> Pair {
    (base_tag(element.tag), element.reference)
}

/// The bytes that a slot names: none where the element is not stored, or of tag 107.
pub fn bytes_of<'a>(image: &'a [u8], element: &Element) -> &'a [u8] {
    if base_tag(element.tag) == MACHINE_TYPE {
        return &[];
    }
    let behind = image.get(element.offset as usize..).unwrap_or(&[]);
    behind.get(..element.length as usize).unwrap_or(&[])
}

/// The kind of a record: in its first 16 bits or, where these are 0, in its first 32.
fn kind(record: &[u8]) -> Option<u32> {
    match u16::from_be_bytes(number(record, 0)?) {
        0 => number(record, 0).map(u32::from_be_bytes),
        kind => Some(kind.into()),
    }
}

/// Some bytes of a record, if it has them.
fn number<const N: usize>(record: &[u8], place: usize) -> Option<[u8; N]> {
    record.get(place..place + N)?.try_into().ok()
}

#[cfg(test)]
mod tests {
    use super::*;

    /// An image that is a record, and the extended element that it is of.
    fn stored(record: &[u8]) -> Storage {
        Storage::of(record, &element(record, 16384 + 702))
    }

    fn element(record: &[u8], tag: u16) -> Element {
        Element { tag, reference: 1, offset: 0, length: record.len() as u32 }
    }

    #[test]
    fn a_record_tells_its_kind() {
        assert_eq!(Storage::of(b"snow", &element(b"snow", 702)), Storage::Plain);
        let unstored = Element { tag: 702, reference: 1, offset: u32::MAX, length: u32::MAX };
        assert_eq!(Storage::of(b"snow", &unstored), Storage::NotStored);
        assert_eq!(stored(b"\0\x01\0\0\0\x30"), Storage::Linked);
        assert_eq!(stored(b"\0\0\0\x01\0\0"), Storage::Linked);
        assert_eq!(stored(b"\0\x03\0\0\0\0\x04\0\0\x01\0\0\0\x04\0\x06"), Storage::Packed);
        assert_eq!(stored(b"\0\x03"), Storage::Packed);
        assert_eq!(stored(b"\0\x05\0\0\0\x3d"), Storage::Chunked);
        assert_eq!(stored(b"\0\x02\0\0\0\x28\0\0\0\0\0\0\0\x05a.dat"), Storage::External);
        for unknown in [&b"\0\x09\0\0"[..], b"\0", b"\0\0\0", b""] {
            assert_eq!(stored(unknown), Storage::Unknown);
        }
    }

    #[test]
    fn a_record_tells_the_length_of_what_it_describes() {
        let length = |record: &[u8]| own_length(record, &element(record, 16384 + 702));
        assert_eq!(length(b"\0\x01\0\0\0\x30\0\0\x10\0\0\0\0\x10\0\x02"), Some(48));
        assert_eq!(length(b"\0\0\0\x01\0\0\0\x08\0\0\0\x04\0\0\0\x04\0\0\0\x02\0\x01"), Some(8));
        assert_eq!(length(b"\0\x01\0\0\0\x30"), None);
        assert_eq!(length(b"\0\x02\0\0\0\x28\0\0\0\0\0\0\0\x01a"), Some(40));
        assert_eq!(length(b"\0\x03\0\0\0\0\x04\0\0\x01\0\0\0\x04"), Some(1024));
        assert_eq!(length(b"\0\x05\0\0\0\x3d\0\0\0\0\0\0\0\0\x40\0\0\0\x10\0\0\0\x04"), Some(256));
        assert_eq!((length(b"\0\x03"), length(b"\0\x09\0\0\0\0\0\0")), (None, None));
    }
}
