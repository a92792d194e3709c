//! Memory lent to the library, watched for bytes that change where none may.

use hdf4_sys::Field;
use std::fmt::Debug;
use std::hint::black_box;
use std::ops::Range;

const EDGE: usize = 32;
const EDGE_BYTE: u8 = 0xa5;
const WATCHED_END: usize = 4096;

/// An image in the middle of a memory, with the bytes that must stay as they are.
pub struct Lent<'a> {
    memory: &'a [u8],
    image: Range<usize>,
    watched: Vec<(usize, Vec<u8>)>,
}

/// A table lent for a call to write to, filled with other numbers, with a few numbers before and after it.
pub struct Table<T> {
    memory: Vec<T>,
    room: Range<usize>,
}

/// A copy of an image with a few bytes before and after it, and where the image lies in it.
pub fn surround(image: &[u8], shift: usize) -> (Vec<u8>, Range<usize>) {
    let start = EDGE + shift;
    let mut memory = vec![EDGE_BYTE; start];
    memory.extend_from_slice(image);
    let end = memory.len();
    memory.resize(end + EDGE, EDGE_BYTE);
    (memory, start..end)
}

impl<'a> Lent<'a> {
    /// Watches every byte of the memory.
    pub fn watch_all(memory: &'a [u8], image: Range<usize>) -> Lent<'a> {
        let watched = vec![(0, memory.to_vec())];
        Lent { memory, image, watched }
    }

    /// Watches both ends of a memory too large to copy.
    pub fn watch_ends(memory: &'a [u8], image: Range<usize>) -> Lent<'a> {
        let last = image.end.saturating_sub(WATCHED_END);
        let part = |start: usize, end: usize| (start, memory[start..end].to_vec());
        let watched = vec![part(0, WATCHED_END.min(memory.len())), part(last, image.end)];
        Lent { memory, image, watched }
    }

    pub fn image(&self) -> &'a [u8] {
        &self.memory[self.image.clone()]
    }

    pub fn is_unchanged(&self) -> bool {
        let memory = black_box(self.memory);
        self.watched.iter().all(|(start, bytes)| memory[*start..start + bytes.len()] == bytes[..])
    }
}

impl<T: Copy + Debug + PartialEq + Filling> Table<T> {
    pub fn new(room: usize) -> Table<T> {
        Table { memory: filling(EDGE + room + EDGE), room: EDGE..EDGE + room }
    }

    pub fn lend(&mut self) -> &mut [T] {
        &mut self.memory[self.room.clone()]
    }

    /// The first place where the table is not what it was with `written` at its front, in words.
    pub fn difference(&self, written: &[T]) -> Option<String> {
        let mut expected: Vec<T> = filling(self.memory.len());
        expected[EDGE..EDGE + written.len()].copy_from_slice(written);
        let memory = black_box(&self.memory);
        let place = memory.iter().zip(&expected).position(|(one, other)| one != other)?;
        let (found, wanted) = (memory[place], expected[place]);
        Some(format!("entry {} of the table is {found:?}, not {wanted:?}", place as i64 - EDGE as i64))
    }
}

/// What fills a table beforehand.
pub trait Filling {
    fn filled(byte: u8) -> Self;
}

impl Filling for u8 {
    fn filled(byte: u8) -> u8 {
        byte
    }
}

impl Filling for u16 {
    fn filled(byte: u8) -> u16 {
        byte.into()
    }
}

impl Filling for u32 {
    fn filled(byte: u8) -> u32 {
        byte.into()
    }
}

impl Filling for u64 {
    fn filled(byte: u8) -> u64 {
        u64::from(byte) | 0xc3e1_8700_5ad2_0000
    }
}

/// Another number in each place of a field.
impl Filling for Field {
    fn filled(byte: u8) -> Field {
        let number = u16::from(byte) | 0xa500;
        let long = u32::from(byte) | 0xc3e1_8700;
        Field {
            code: number,
            size: number ^ 0x1111,
            offset: number ^ 0x2222,
            order: number ^ 0x3333,
            name_offset: long,
            name_length: long ^ 0x4444_4444,
        }
    }
}

/// Numbers that differ from their neighbours.
fn filling<T: Filling>(count: usize) -> Vec<T> {
    (0..count).map(|index| T::filled((index * 89 + 0x5a) as u8)).collect()
}
