//! Number types, dimensions and arrays.

use crate::{granted, view, Error};
use hdf4_sys as ffi;

/// A tag and a reference.
#[derive(Clone, Copy, Debug, PartialEq, Eq)]
pub struct Pair {
    /// The tag.
    pub tag: u16,
    /// The reference.
    pub reference: u16,
}

/// A number type, of tag 106: four bytes of any values.
#[derive(Clone, Copy, Debug, PartialEq, Eq)]
pub struct NumberType {
    /// The version of this record.
    pub version: u8,
    /// The type's code, as 24 for a signed number of 32 bits.
    pub number_type: u8,
    /// How many bits a number has.
    pub width: u8,
    /// How the number is written, as 1 for high byte first.
    pub class: u8,
}

/// A dimension, of tag 300, 307 or 308. The interlace is at most 2.
#[derive(Clone, Copy, Debug, PartialEq, Eq)]
pub struct Dimension {
    /// Columns.
    pub x: u32,
    /// Rows.
    pub y: u32,
    /// Names the record of the number type.
    pub number_type: Pair,
    /// Numbers in each point.
    pub elements: u16,
    /// By point (0), by row (1) or by plane (2).
    pub interlace: u16,
    /// Names how the image is compressed.
    pub compression: Pair,
}

/// An array, of tag 701: at least one size, and one pair more, the data's number type first.
#[derive(Clone, Debug, PartialEq, Eq)]
pub struct Array {
    /// The size in each dimension.
    pub sizes: Vec<u32>,
    /// The number type of the data, then that of the scale of each dimension.
    pub pairs: Vec<Pair>,
}

const ARRAY: u16 = 701;
const BYTES_OF_A_SIZE_AND_A_PAIR: usize = 8;

/// The most entries that the list of a record has: their number has 16 bits.
pub(crate) const MOST_OF_A_LIST: usize = 65535;

pub(crate) fn pair(tag: u64, reference: u64) -> Pair {
    Pair { tag: tag as u16, reference: reference as u16 }
}

/// The pairs in a table of tags and references.
pub(crate) fn pairs_of(table: &[u16]) -> Vec<Pair> {
    table.chunks_exact(2).map(|pair| Pair { tag: pair[0], reference: pair[1] }).collect()
}

/// A table of tags and references.
pub(crate) fn table_of(pairs: &[Pair]) -> Vec<u16> {
    pairs.iter().flat_map(|pair| [pair.tag, pair.reference]).collect()
}

pub(crate) fn packed(answer: ffi::PackAnswer) -> Result<usize, Error> {
    granted(answer.number, answer.place, answer.length as usize)
}

/// Reads a number type.
pub fn read_number_type(image: &[u8], reference: u16) -> Result<NumberType, Error> {
    let a = ffi::read_number_type(image, reference);
    let [version, number_type, width, class] = [a.version, a.code, a.width, a.number_class].map(|number| number as u8);
    granted(a.number, a.place, NumberType { version, number_type, width, class })
}

/// Packs a number type to the front of `out` and gives its length, 4.
pub fn pack_number_type(number_type: &NumberType, out: &mut [u8]) -> Result<usize, Error> {
    let NumberType { version, number_type, width, class } = *number_type;
    packed(ffi::pack_number_type(version, number_type, width, class, out))
}

/// Reads the dimension with the base tag of a tag, which may be any.
pub fn read_dimension(image: &[u8], tag: u16, reference: u16) -> Result<Dimension, Error> {
    let a = ffi::read_dimension(image, tag, reference);
    let dimension = Dimension {
        x: a.x as u32,
        y: a.y as u32,
        number_type: pair(a.type_tag, a.type_ref),
        elements: a.elements as u16,
        interlace: a.interlace as u16,
        compression: pair(a.compression_tag, a.compression_ref),
    };
    granted(a.number, a.place, dimension)
}

/// Packs a dimension to the front of `out` and gives its length, 20.
pub fn pack_dimension(dimension: &Dimension, out: &mut [u8]) -> Result<usize, Error> {
    let Dimension { x, y, elements, interlace, .. } = *dimension;
    let Pair { tag: type_tag, reference: type_ref } = dimension.number_type;
    let Pair { tag: compression_tag, reference: compression_ref } = dimension.compression;
    packed(ffi::pack_dimension(x, y, type_tag, type_ref, elements, interlace, compression_tag, compression_ref, out))
}

/// Reads an array.
pub fn read_array(image: &[u8], reference: u16) -> Result<Array, Error> {
    let most = MOST_OF_A_LIST.min(view(image, ARRAY, reference)?.len() / BYTES_OF_A_SIZE_AND_A_PAIR);
    let (mut sizes, mut table) = (vec![0; most], vec![0; 2 * (most + 1)]);
    let a = ffi::read_array(image, reference, &mut sizes, &mut table);
    let rank = granted(a.number, a.place, a.rank as usize)?;
    sizes.truncate(rank);
    Ok(Array { sizes, pairs: pairs_of(&table[..2 * (rank + 1)]) })
}

/// Packs an array to the front of `out` and gives its length, 6 and 8 for each size.
pub fn pack_array(array: &Array, out: &mut [u8]) -> Result<usize, Error> {
    packed(ffi::pack_array(&array.sizes, &table_of(&array.pairs), out))
}

#[cfg(test)]
mod tests {
    use super::*;
    use crate::tests::{file_of, rule};
    use crate::Rule;

    const BEHIND: u8 = 0xee;

    #[test]
    fn a_number_type_is_read_and_packed() {
        let image = file_of(&[(106, 1, b"\x01\x18\x20\x01"), (106, 2, b"\x01\x18\x20")]);
        let number_type = read_number_type(&image, 1).unwrap();
        assert_eq!(number_type, NumberType { version: 1, number_type: 24, width: 32, class: 1 });
        let mut out = [BEHIND; 5];
        assert_eq!(pack_number_type(&number_type, &mut out), Ok(4));
        assert_eq!(&out, b"\x01\x18\x20\x01\xee");
        assert_eq!(rule(pack_number_type(&number_type, &mut out[..3])), (Rule::Small, 14, 0));
        assert_eq!(rule(read_number_type(&image, 2)), (Rule::Record, 15, 22));
        assert_eq!(rule(read_number_type(&image, 3)), (Rule::Absent, 11, 0));
    }

    #[test]
    fn a_dimension_is_read_and_packed() {
        let bytes = b"\0\0\0\x0c\0\0\0\x0a\0\x6a\0\x02\0\x03\0\x01\0\x0b\0\x05";
        let image = file_of(&[(300, 2, bytes)]);
        let dimension = read_dimension(&image, 300, 2).unwrap();
        let number_type = Pair { tag: 106, reference: 2 };
        let compression = Pair { tag: 11, reference: 5 };
        assert_eq!(dimension, Dimension { x: 12, y: 10, number_type, elements: 3, interlace: 1, compression });
        assert_eq!(read_dimension(&image, 16684, 2), Ok(dimension));
        let mut out = [BEHIND; 20];
        assert_eq!(pack_dimension(&dimension, &mut out), Ok(20));
        assert_eq!(&out, bytes);
        assert_eq!(rule(pack_dimension(&Dimension { interlace: 3, ..dimension }, &mut out)), (Rule::Record, 15, 0));
        assert_eq!(rule(read_dimension(&image, 307, 2)), (Rule::Absent, 11, 0));
    }

    #[test]
    fn an_array_is_read_and_packed() {
        let bytes = b"\0\x02\0\0\0\x04\0\0\0\x05\0\x6a\0\x02\0\x6a\0\x03\0\x6a\0\x04";
        let image = file_of(&[(701, 1, bytes), (701, 2, &bytes[..21])]);
        let array = read_array(&image, 1).unwrap();
        let pairs = [2, 3, 4].map(|reference| Pair { tag: 106, reference });
        assert_eq!(array, Array { sizes: vec![4, 5], pairs: pairs.to_vec() });
        let mut out = [BEHIND; 23];
        assert_eq!(pack_array(&array, &mut out), Ok(22));
        assert_eq!(out[..22], bytes[..]);
        assert_eq!(out[22], BEHIND);
        assert_eq!(rule(pack_array(&Array { sizes: vec![4], ..array }, &mut out)), (Rule::Record, 15, 0));
        assert_eq!(rule(read_array(&image, 2)), (Rule::Record, 15, 22));
    }
}
