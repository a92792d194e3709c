//! Well-formed files, laid out at random: blocks in any order, with or without bytes between them.

use crate::random::Random;
use crate::reader::{base_tag, EXTENDED, FIRST_BYTES, FREE, MACHINE_TYPE, MOST_BLOCKS, MOST_SLOTS, UNSTORED};
use std::collections::HashSet;
use std::ops::Range;

const FIRST_BLOCK: usize = 4;
const BLOCK_HEAD: usize = 6;
pub const SLOT_SIZE: usize = 12;

/// How often a pair that is not taken yet is looked for.
const TRIES: usize = 40;

const COMMON_TAGS: [u16; 16] = [2, 20, 30, 100, 106, 108, 300, 302, 701, 702, 1962, 1963, 1965, 16383, 32768, 40000];

pub enum Size {
    Small,
    Medium,
    Large,
}

/// A file in the making: its bytes and where its blocks are, in chain order.
pub struct Draft {
    pub bytes: Vec<u8>,
    pub blocks: Vec<Block>,
}

#[derive(Clone, Copy)]
pub struct Block {
    pub place: usize,
    pub count: usize,
}

/// The four fields of a slot.
pub struct Slot {
    pub tag: u16,
    pub reference: u16,
    pub offset: u32,
    pub length: u32,
}

impl Block {
    pub fn end(&self) -> usize {
        self.slot(self.count)
    }

    /// The place of the slot with this index.
    pub fn slot(&self, index: usize) -> usize {
        self.place + BLOCK_HEAD + SLOT_SIZE * index
    }
}

/// A file that opens.
pub fn well_formed(random: &mut Random, size: Size) -> Draft {
    let counts = slot_counts(random, size);
    let mut draft = lay_out(random, &counts);
    fill_slots(random, &mut draft, 5);
    draft
}

/// How many slots each block has.
fn slot_counts(random: &mut Random, size: Size) -> Vec<usize> {
    let (blocks, most) = match size {
        Size::Small => (random.between(1, 4), 5),
        Size::Medium => (random.between(1, 20), 12),
        Size::Large => large(random),
    };
    (0..blocks).map(|_| random.below(most + 1)).collect()
}

/// Up to the limits, shorter directories more often than long ones.
fn large(random: &mut Random) -> (usize, usize) {
    let blocks = random.between(1, MOST_BLOCKS);
    let slots = MOST_SLOTS as usize >> random.below(6);
    (blocks, slots / blocks)
}

/// Places the blocks with these slot counts in a file and links them. The slots hold whatever the file is filled with.
pub fn lay_out(random: &mut Random, counts: &[usize]) -> Draft {
    let mut blocks: Vec<Block> = counts.iter().map(|count| Block { place: FIRST_BLOCK, count: *count }).collect();
    let mut order: Vec<usize> = (1..blocks.len()).collect();
    random.shuffle(&mut order);
    let mut end = blocks[0].end();
    for index in order {
        blocks[index].place = end + gap(random);
        end = blocks[index].end();
    }
    end += gap(random);
    let bytes = filler(random, end);
    let mut draft = Draft { bytes, blocks };
    draft.bytes[..FIRST_BLOCK].copy_from_slice(&FIRST_BYTES);
    draft.link();
    draft
}

/// Bytes between two blocks, or after the last one.
fn gap(random: &mut Random) -> usize {
    match random.below(4) {
        0 => 0,
        1 => 1,
        _ => random.between(2, 24),
    }
}

fn filler(random: &mut Random, count: usize) -> Vec<u8> {
    match random.below(4) {
        0 => vec![0; count],
        1 => vec![0xff; count],
        _ => random.bytes(count),
    }
}

/// Writes every slot; one in `free` is free.
pub fn fill_slots(random: &mut Random, draft: &mut Draft, free: usize) {
    let gaps = draft.gaps();
    let mut taken = HashSet::new();
    for place in draft.slots() {
        let slot = if random.once_in(free) { free_slot(random) } else { live_slot(random, draft, &gaps, &mut taken) };
        draft.put_slot(place, &slot);
    }
}

/// A free slot, the other fields anything.
pub fn free_slot(random: &mut Random) -> Slot {
    let ones = Slot { tag: FREE, reference: 0, offset: u32::MAX, length: u32::MAX };
    match random.below(4) {
        0 => Slot { offset: 0, length: 0, ..ones },
        1 => ones,
        2 => Slot { reference: 1, offset: 0, length: 8, ..ones },
        _ => Slot { reference: random.u16(), offset: random.u32(), length: random.u32(), ..ones },
    }
}

/// A live slot whose pair is not taken yet, or a free one if none is found.
fn live_slot(random: &mut Random, draft: &Draft, gaps: &[Range<usize>], taken: &mut HashSet<(u16, u16)>) -> Slot {
    for _ in 0..TRIES {
        let (tag, reference) = pair(random);
        let base = base_tag(tag);
        let key = if base == MACHINE_TYPE { (base, 0) } else { (base, reference) };
        if base == 0 || base == FREE || !taken.insert(key) {
            continue;
        }
        let (offset, length) = element(random, draft, gaps, base);
        return Slot { tag, reference, offset, length };
    }
    free_slot(random)
}

/// A tag, extended at times, and a reference.
fn pair(random: &mut Random) -> (u16, u16) {
    let tag = match random.below(20) {
        0 => MACHINE_TYPE,
        1..=3 => random.u16(),
        _ => random.pick(&COMMON_TAGS),
    };
    let extended = tag < EXTENDED && random.once_in(4);
    let reference = match random.below(3) {
        0 => random.u16(),
        _ => random.below(6) as u16,
    };
    (if extended { tag + EXTENDED } else { tag }, reference)
}

/// Offset and length of an element that may stand: in a gap between blocks, with no bytes at all, or not stored yet.
fn element(random: &mut Random, draft: &Draft, gaps: &[Range<usize>], base: u16) -> (u32, u32) {
    if base == MACHINE_TYPE {
        return (random.pick(&[0, 4, UNSTORED]), random.pick(&[0, 1, UNSTORED]));
    }
    if random.once_in(10) {
        return (UNSTORED, UNSTORED);
    }
    if gaps.is_empty() || random.once_in(6) {
        return (absurd_offset(random, draft), 0);
    }
    let gap = &gaps[random.below(gaps.len())];
    let part = part_of(random, gap);
    (part.start as u32, part.len() as u32)
}

/// An offset at which only an element without bytes can stand.
pub fn absurd_offset(random: &mut Random, draft: &Draft) -> u32 {
    let n = draft.bytes.len() as u32;
    let block = draft.blocks[random.below(draft.blocks.len())];
    let any = random.u32();
    random.pick(&[0, 2, 4, block.place as u32, n, n + 1, any, u32::MAX])
}

/// The whole of a range, its beginning, its end, or any part, never empty.
fn part_of(random: &mut Random, range: &Range<usize>) -> Range<usize> {
    let start = random.between(range.start, range.end - 1);
    let end = random.between(start + 1, range.end);
    match random.below(4) {
        0 => range.clone(),
        1 => range.start..end,
        2 => start..range.end,
        _ => start..end,
    }
}

impl Draft {
    /// The places of all slots, in chain order.
    pub fn slots(&self) -> Vec<usize> {
        self.blocks.iter().flat_map(|block| (0..block.count).map(|index| block.slot(index))).collect()
    }

    /// The places of the live slots, in chain order.
    pub fn live_slots(&self) -> Vec<usize> {
        self.slots().into_iter().filter(|place| self.get16(*place).is_some_and(|tag| tag != FREE)).collect()
    }

    /// The parts of the file, none empty, between and after the blocks.
    pub fn gaps(&self) -> Vec<Range<usize>> {
        let mut blocks = self.blocks.clone();
        blocks.sort_by_key(|block| block.place);
        let starts = blocks.iter().map(Block::end);
        let ends = blocks.iter().skip(1).map(|block| block.place).chain([self.bytes.len()]);
        starts.zip(ends).filter(|(start, end)| start < end).map(|(start, end)| start..end).collect()
    }

    /// Whether the byte belongs to the first four bytes or to a block.
    pub fn in_directory(&self, place: usize) -> bool {
        place < FIRST_BLOCK || self.blocks.iter().any(|block| (block.place..block.end()).contains(&place))
    }

    /// Writes the count and next field of every block.
    fn link(&mut self) {
        for index in 0..self.blocks.len() {
            let next = self.blocks.get(index + 1).map_or(0, |block| block.place);
            let count = self.blocks[index].count;
            self.put_count(index, count as u16);
            self.put_next(index, next as u32);
        }
    }

    pub fn put_count(&mut self, block: usize, count: u16) {
        self.put(self.blocks[block].place, &count.to_be_bytes());
    }

    pub fn put_next(&mut self, block: usize, next: u32) {
        self.put(self.blocks[block].place + 2, &next.to_be_bytes());
    }

    pub fn put_tag(&mut self, slot: usize, tag: u16) {
        self.put(slot, &tag.to_be_bytes());
    }

    pub fn put_reference(&mut self, slot: usize, reference: u16) {
        self.put(slot + 2, &reference.to_be_bytes());
    }

    pub fn put_element(&mut self, slot: usize, offset: u32, length: u32) {
        self.put(slot + 4, &offset.to_be_bytes());
        self.put(slot + 8, &length.to_be_bytes());
    }

    pub fn put_slot(&mut self, place: usize, slot: &Slot) {
        self.put_tag(place, slot.tag);
        self.put_reference(place, slot.reference);
        self.put_element(place, slot.offset, slot.length);
    }

    /// Writes bytes that lie inside the file; others are left out.
    pub fn put(&mut self, place: usize, bytes: &[u8]) {
        if let Some(part) = self.bytes.get_mut(place..place + bytes.len()) {
            part.copy_from_slice(bytes);
        }
    }

    pub fn get16(&self, place: usize) -> Option<u16> {
        let part = self.bytes.get(place..place + 2)?;
        Some(u16::from_be_bytes([part[0], part[1]]))
    }
}
