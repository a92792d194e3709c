//! Random calls on a file: most can be granted, others break a rule or come close to it.

use super::desks::Desks;
use crate::editor::{Edit, Form, Kind, Request, BLOCK_SIZE};
use crate::random::Random;
use crate::reader::{self, base_tag, EXTENDED, MOST_BYTES};

type Pair = (u16, u16);

/// Tags that an edit takes, those next to a refused one among them.
const GOOD_TAGS: [u16; 12] = [2, 100, 106, 108, 302, 720, 1965, 16383, 32768, 32769, 40000, 65535];
const BAD_TAGS: [u16; 8] = [0, 1, 107, 16384, 16385, 16491, 16686, 32767];

/// What is drawn from: how many of a hundred calls are undos, and the kinds of the others.
#[derive(Clone, Copy)]
pub struct Mix {
    pub undos: usize,
    pub kinds: &'static [Kind],
}

pub const ALL_KINDS: &[Kind] = &[Kind::Add, Kind::Add, Kind::Replace, Kind::Remove];

/// A call on a file in a buffer, by one of the desks.
pub fn request(random: &mut Random, file: &[u8], capacity: usize, mix: Mix, desks: &mut Desks) -> Request {
    match random.below(100) < mix.undos {
        true => Request::Undo { desk: desks.of_undo(random, file) },
        false => Request::Edit(edit(random, file, capacity, mix.kinds, desks)),
    }
}

pub fn edit(random: &mut Random, file: &[u8], capacity: usize, kinds: &[Kind], desks: &mut Desks) -> Edit {
    let kind = random.pick(kinds);
    let expected = kind != Kind::Add;
    let live = if random.once_in(7) { !expected } else { expected };
    let (tag, reference) = pair(random, &live_pairs(file), live);
    let tag = if random.once_in(14) { bad_tag(random, tag) } else { tag };
    let size = if kind == Kind::Remove { 0 } else { size(random, file.len(), capacity) };
    Edit { desk: desks.next(random), kind, tag, reference, data: random.bytes(size) }
}

/// A number of bytes that no file in a buffer can have.
pub fn absurd_length(random: &mut Random, length: usize, capacity: usize) -> u64 {
    let (length, capacity) = (length as u64, capacity as u64);
    let above = capacity + 1 + random.below(40) as u64;
    let top = 1 << random.between(32, 63);
    random.pick(&[capacity + 1, above, MOST_BYTES, MOST_BYTES + 1, 1 << 32, top + length, top, u64::MAX])
}

/// The live pairs of a file, by base tag.
fn live_pairs(file: &[u8]) -> Vec<Pair> {
    match reader::open(file) {
        Ok(directory) => directory.live().map(|slot| (slot.base_tag(), slot.reference)).collect(),
        Err(_) => Vec::new(),
    }
}

/// A live pair, or one that shares its tag or its reference, or any.
fn pair(random: &mut Random, pairs: &[Pair], live: bool) -> Pair {
    let fresh = (random.pick(&GOOD_TAGS), random.below(40) as u16);
    if pairs.is_empty() {
        return fresh;
    }
    let (tag, reference) = random.pick(pairs);
    if live {
        return (tag, reference);
    }
    match random.below(5) {
        0 => (tag, reference.wrapping_add(1)),
        1 => (tag ^ 0x8000, reference),
        2 => (random.pick(&GOOD_TAGS), reference),
        _ => fresh,
    }
}

/// A tag that no edit takes, at times the extended form of a good one.
fn bad_tag(random: &mut Random, tag: u16) -> u16 {
    let base = base_tag(tag);
    let extended = if base < EXTENDED { base + EXTENDED } else { base - EXTENDED };
    let any = random.between(EXTENDED.into(), 32767) as u16;
    match random.below(3) {
        0 => extended,
        1 => any,
        _ => random.pick(&BAD_TAGS),
    }
}

/// How many bytes of data: none, a few, many, or about as many as the buffer has room for.
fn size(random: &mut Random, length: usize, capacity: usize) -> usize {
    let room = capacity.saturating_sub(length + Form::Long.size());
    match random.below(14) {
        0 | 1 => 0,
        2 => about(random, room),
        3 => about(random, room.saturating_sub(BLOCK_SIZE)),
        4 => random.below(300),
        _ => random.between(1, 20),
    }
}

fn about(random: &mut Random, size: usize) -> usize {
    (size + random.below(3)).saturating_sub(1)
}
