//! Small files made of readable pieces. The slots of such a file stand at 10, 22, 34 and so on.

use crate::reader::{FIRST_BYTES, FREE};

/// A slot that is free.
pub const FREE_SLOT: [u8; 12] = slot(FREE, 0, 0, 0);

/// Offset and length of an element that is not stored yet.
pub const ALL_ONES: u32 = 4_294_967_295;

/// Where the first block names the next one, and where its first slot stands.
pub const NEXT: usize = 6;
pub const FIRST_SLOT: usize = 10;

/// Where the fields of a slot stand in it.
const REFERENCE: usize = 2;
const OFFSET: usize = 4;
const LENGTH: usize = 8;

/// A file: the bytes at its front, and zeros behind them up to its length.
#[derive(Clone, Debug, Default)]
pub struct Image {
    front: Vec<u8>,
    length: usize,
}

/// The first four bytes and what stands behind them.
pub fn image(pieces: &[&[u8]]) -> Image {
    Image::from([&FIRST_BYTES[..], &pieces.concat()].concat())
}

/// A file of one block: a free slot, then these elements, given by tag, reference and bytes.
pub fn file(elements: &[(u16, u16, Vec<u8>)]) -> Image {
    let count = elements.len() as u16 + 1;
    let mut bytes = [&FIRST_BYTES[..], &block(count, 0), &FREE_SLOT].concat();
    let mut offset = FIRST_SLOT as u32 + 12 * u32::from(count);
    for (tag, reference, element) in elements {
        let length = element.len() as u32;
        bytes.extend(slot(*tag, *reference, offset, length));
        offset += length;
    }
    elements.iter().for_each(|(_, _, element)| bytes.extend(element));
    Image::from(bytes)
}

/// The head of a block.
pub const fn block(count: u16, next: u32) -> [u8; 6] {
    let ([a, b], [c, d, e, f]) = (count.to_be_bytes(), next.to_be_bytes());
    [a, b, c, d, e, f]
}

pub const fn slot(tag: u16, reference: u16, offset: u32, length: u32) -> [u8; 12] {
    let ([a, b], [c, d]) = (tag.to_be_bytes(), reference.to_be_bytes());
    let ([e, f, g, h], [i, j, k, l]) = (offset.to_be_bytes(), length.to_be_bytes());
    [a, b, c, d, e, f, g, h, i, j, k, l]
}

/// A slot with the reference 1 whose element is not stored yet.
pub const fn unstored(tag: u16) -> [u8; 12] {
    slot(tag, 1, ALL_ONES, ALL_ONES)
}

/// What a trailer of either form begins with: place altered, bytes altered, old bytes, length before, and place of the previous
/// trailer.
pub fn change(place: u32, altered: u32, old: [u8; 12], before: u32, previous: u32) -> Vec<u8> {
    [&numbers32(&[place, altered]), &old[..], &numbers32(&[before, previous])].concat()
}

/// The trailer of an edit by a desk.
pub fn long_trailer(change: Vec<u8>, desk: u32) -> Vec<u8> {
    [&change[..], &desk.to_be_bytes(), b"BAC2"].concat()
}

/// The trailer of an edit from before trailers named a desk.
pub fn old_trailer(change: Vec<u8>) -> Vec<u8> {
    [&change[..], b"BACK"].concat()
}

/// Numbers of 16 bits, one after the other.
pub fn numbers16(numbers: &[u16]) -> Vec<u8> {
    numbers.iter().flat_map(|number| number.to_be_bytes()).collect()
}

/// Numbers of 32 bits, one after the other.
pub fn numbers32(numbers: &[u32]) -> Vec<u8> {
    numbers.iter().flat_map(|number| number.to_be_bytes()).collect()
}

/// The head of a Vdata without names. Each field is given by type, size, offset and order; in the head all types come first, then
/// all sizes, and so on.
pub fn vdata_head(interlace: u16, records: u32, record_size: u16, fields: &[[u16; 4]]) -> Vec<u8> {
    let column = |index: usize| fields.iter().map(|field| field[index]).collect::<Vec<u16>>();
    let columns = [0, 1, 2, 3].map(column).concat();
    let lengths = vec![0; fields.len()];
    let start = [numbers16(&[interlace]), numbers32(&[records]), numbers16(&[record_size, fields.len() as u16])];
    let rest = [columns, lengths, vec![0, 0, 0, 0, 3, 0]].concat();
    [start.concat(), numbers16(&rest)].concat()
}

/// Bytes from their digits, in groups of any size.
pub fn hex(digits: &str) -> Vec<u8> {
    let digits: Vec<u32> = digits.chars().filter_map(|digit| digit.to_digit(16)).collect();
    digits.chunks(2).map(|two| (16 * two[0] + two[1]) as u8).collect()
}

/// A length and that many bytes.
pub fn text(bytes: &[u8]) -> Vec<u8> {
    [&numbers16(&[bytes.len() as u16]), bytes].concat()
}

impl From<Vec<u8>> for Image {
    fn from(front: Vec<u8>) -> Image {
        let length = front.len();
        Image { front, length }
    }
}

impl Image {
    pub fn len(&self) -> usize {
        self.length
    }

    /// All bytes. The system makes the pages of a long image only when they are read.
    pub fn bytes(&self) -> Vec<u8> {
        let mut bytes = vec![0; self.length];
        bytes[..self.front.len()].copy_from_slice(&self.front);
        bytes
    }

    /// Zeros behind the image, up to a length.
    pub fn lengthen(&mut self, length: usize) {
        self.length = length;
    }

    /// Other bytes at the front. A long image stays as long.
    pub fn put_front(&mut self, front: Vec<u8>) {
        self.length = if self.length > self.front.len() { self.length } else { front.len() };
        self.front = front;
    }

    /// The image cut to so many bytes.
    pub fn cut(&mut self, length: usize) {
        *self = Image::from(self.front[..length].to_vec());
    }

    pub fn append(&mut self, bytes: &[u8]) {
        *self = Image::from([&self.bytes(), bytes].concat());
    }

    pub fn put(&mut self, place: usize, bytes: &[u8]) {
        self.front[place..place + bytes.len()].copy_from_slice(bytes);
    }

    pub fn put16(&mut self, place: usize, number: u16) {
        self.put(place, &number.to_be_bytes());
    }

    pub fn put32(&mut self, place: usize, number: u32) {
        self.put(place, &number.to_be_bytes());
    }

    pub fn put_tag(&mut self, slot: usize, tag: u16) {
        self.put16(slot, tag);
    }

    pub fn put_reference(&mut self, slot: usize, reference: u16) {
        self.put16(slot + REFERENCE, reference);
    }

    pub fn put_offset(&mut self, slot: usize, offset: u32) {
        self.put32(slot + OFFSET, offset);
    }

    /// Another length of a slot's element, whose bytes stay where they are.
    pub fn put_length(&mut self, slot: usize, length: u32) {
        self.put32(slot + LENGTH, length);
    }

    /// The element of a slot is not stored yet.
    pub fn unstore(&mut self, slot: usize) {
        self.put_offset(slot, ALL_ONES);
        self.put_length(slot, ALL_ONES);
    }

    /// A number at a place in a slot's element.
    pub fn put16_in(&mut self, slot: usize, place: usize, number: u16) {
        self.put16(self.offset(slot) + place, number);
    }

    pub fn put32_in(&mut self, slot: usize, place: usize, number: u32) {
        self.put32(self.offset(slot) + place, number);
    }

    /// How many bytes a slot's element has.
    pub fn length(&self, slot: usize) -> usize {
        self.number32(slot + LENGTH)
    }

    fn offset(&self, slot: usize) -> usize {
        self.number32(slot + OFFSET)
    }

    fn number32(&self, place: usize) -> usize {
        let bytes = &self.front[place..place + 4];
        u32::from_be_bytes(bytes.try_into().expect("four bytes")) as usize
    }
}
