//! An independent reader of the directory, written from the written rules alone: opening, lookup and listing.

use std::collections::HashSet;
use std::ops::Range;

pub const TOO_LONG: u64 = 1;
pub const NOT_HDF: u64 = 2;
pub const DIR_CUT: u64 = 3;
pub const DIR_LOOP: u64 = 4;
pub const DIR_OVER: u64 = 5;
pub const DIR_BIG: u64 = 6;
pub const BAD_TAG: u64 = 7;
pub const OUTSIDE: u64 = 8;
pub const ON_DIRECTORY: u64 = 9;
pub const TWICE: u64 = 10;
pub const ABSENT: u64 = 11;
pub const SMALL: u64 = 14;
pub const NOT_STORED: u64 = 29;

pub const MOST_BYTES: u64 = 2_147_483_647;
pub const MOST_BLOCKS: usize = 256;
pub const MOST_SLOTS: u64 = 4096;

pub const FIRST_BYTES: [u8; 4] = [0x0e, 0x03, 0x13, 0x01];
pub const FIRST_BLOCK: u64 = 4;
pub const BLOCK_HEAD: u64 = 6;
pub const SLOT_SIZE: u64 = 12;

pub const FREE: u16 = 1;
pub const MACHINE_TYPE: u16 = 107;
pub const EXTENDED: u16 = 16384;

/// Offset and length of an element that is named and not stored yet.
pub const UNSTORED: u32 = u32::MAX;

/// A refusal: its number, and the place that it names.
#[derive(Clone, Copy, Debug, PartialEq, Eq)]
pub struct Refusal {
    pub number: u64,
    pub place: u64,
}

/// A block of slots.
#[derive(Clone, Debug)]
pub struct Block {
    pub place: u64,
    pub count: u64,
    pub next: u64,
}

/// A slot, its fields as stored.
#[derive(Clone, Debug)]
pub struct Slot {
    pub place: u64,
    pub tag: u16,
    pub reference: u16,
    pub offset: u32,
    pub length: u32,
}

/// The directory of an image that opens: its blocks and all its slots, in chain order.
#[derive(Clone, Debug)]
pub struct Directory {
    pub blocks: Vec<Block>,
    pub slots: Vec<Slot>,
}

/// Opens an image: length, first bytes, chain, slots. The first fault answers.
pub fn open(image: &[u8]) -> Result<Directory, Refusal> {
    if image.len() as u64 > MOST_BYTES {
        return refuse(TOO_LONG, 0);
    }
    if image.len() < 4 || image[..4] != FIRST_BYTES {
        return refuse(NOT_HDF, 0);
    }
    let blocks = walk(image)?;
    let slots: Vec<Slot> = blocks.iter().flat_map(|block| slots_of(image, block)).collect();
    judge_slots(image, &blocks, &slots)?;
    Ok(Directory { blocks, slots })
}

impl Directory {
    /// The live slots, in chain order.
    pub fn live(&self) -> impl Iterator<Item = &Slot> {
        self.slots.iter().filter(|slot| slot.is_live())
    }

    /// The place of the live slot with the base tag of `tag` and the reference.
    pub fn find(&self, tag: u16, reference: u16) -> Result<u64, Refusal> {
        match self.slot(tag, reference) {
            Some(slot) => Ok(slot.place),
            None => refuse(ABSENT, 0),
        }
    }

    /// The same slot, where its element is stored: what every call that reads an element asks for first.
    pub fn stored(&self, tag: u16, reference: u16) -> Result<&Slot, Refusal> {
        match self.slot(tag, reference) {
            None => refuse(ABSENT, 0),
            Some(slot) if slot.is_unstored() => refuse(NOT_STORED, slot.place),
            Some(slot) => Ok(slot),
        }
    }

    /// The live slot with the base tag of `tag` and the reference.
    pub fn slot(&self, tag: u16, reference: u16) -> Option<&Slot> {
        let wanted = (base_tag(tag), reference);
        self.live().find(|slot| (slot.base_tag(), slot.reference) == wanted)
    }

    /// Tag, reference, offset and length of each live slot, as stored.
    pub fn list(&self) -> Vec<u32> {
        let fields = |slot: &Slot| [slot.tag.into(), slot.reference.into(), slot.offset, slot.length];
        self.live().flat_map(fields).collect()
    }
}

impl Block {
    pub fn bytes(&self) -> Range<u64> {
        self.place..self.place + BLOCK_HEAD + SLOT_SIZE * self.count
    }
}

impl Slot {
    pub fn is_live(&self) -> bool {
        self.tag != FREE
    }

    pub fn base_tag(&self) -> u16 {
        base_tag(self.tag)
    }

    /// Whether the slot is live and its element not stored yet. A machine type is empty, whatever its fields.
    pub fn is_unstored(&self) -> bool {
        let is_named = self.is_live() && self.base_tag() != MACHINE_TYPE;
        is_named && self.offset == UNSTORED && self.length == UNSTORED
    }

    /// The bytes of the element, none where it is empty or not stored yet.
    pub fn bytes(&self) -> Option<Range<u64>> {
        if self.length == 0 || self.base_tag() == MACHINE_TYPE || self.is_unstored() {
            return None;
        }
        let offset = u64::from(self.offset);
        Some(offset..offset + u64::from(self.length))
    }

    /// Two live slots with the same key clash. All machine types have one key.
    fn key(&self) -> (u16, u16) {
        match self.base_tag() {
            MACHINE_TYPE => (MACHINE_TYPE, 0),
            tag => (tag, self.reference),
        }
    }
}

/// The tag without the mark of extended storage.
pub fn base_tag(tag: u16) -> u16 {
    match tag {
        16384..=32767 => tag - EXTENDED,
        _ => tag,
    }
}

/// All blocks of the chain, each judged before its next field is followed.
fn walk(image: &[u8]) -> Result<Vec<Block>, Refusal> {
    let mut blocks = Vec::new();
    let mut place = FIRST_BLOCK;
    loop {
        let block = judge_block(image, place, &blocks)?;
        place = block.next;
        blocks.push(block);
        if place == 0 {
            return Ok(blocks);
        }
    }
}

/// Judges the block at `place` against those walked before it.
fn judge_block(image: &[u8], place: u64, earlier: &[Block]) -> Result<Block, Refusal> {
    let n = image.len() as u64;
    if earlier.iter().any(|block| block.place == place) {
        return refuse(DIR_LOOP, place);
    }
    if earlier.len() == MOST_BLOCKS {
        return refuse(DIR_BIG, place);
    }
    if place + BLOCK_HEAD > n {
        return refuse(DIR_CUT, place);
    }
    let block = block_at(image, place);
    let so_far: u64 = earlier.iter().map(|block| block.count).sum();
    if so_far + block.count > MOST_SLOTS {
        return refuse(DIR_BIG, place);
    }
    if block.bytes().end > n {
        return refuse(DIR_CUT, place);
    }
    if on_directory(&block.bytes(), earlier) {
        return refuse(DIR_OVER, place);
    }
    Ok(block)
}

/// Judges the live slots in chain order, each against those before it.
fn judge_slots(image: &[u8], blocks: &[Block], slots: &[Slot]) -> Result<(), Refusal> {
    let mut earlier = HashSet::new();
    for slot in slots.iter().filter(|slot| slot.is_live()) {
        judge_slot(image, blocks, slot)?;
        if !earlier.insert(slot.key()) {
            return refuse(TWICE, slot.place);
        }
    }
    Ok(())
}

/// Judges the tag and the element of one live slot.
fn judge_slot(image: &[u8], blocks: &[Block], slot: &Slot) -> Result<(), Refusal> {
    if slot.base_tag() == 0 || slot.tag == EXTENDED + FREE {
        return refuse(BAD_TAG, slot.place);
    }
    let Some(bytes) = slot.bytes() else { return Ok(()) };
    if bytes.end > image.len() as u64 {
        return refuse(OUTSIDE, slot.place);
    }
    if on_directory(&bytes, blocks) {
        return refuse(ON_DIRECTORY, slot.place);
    }
    Ok(())
}

/// Whether the bytes touch the first four bytes or one of the blocks.
fn on_directory(bytes: &Range<u64>, blocks: &[Block]) -> bool {
    share(bytes, &(0..FIRST_BLOCK)) || blocks.iter().any(|block| share(bytes, &block.bytes()))
}

/// Whether two ranges, neither of them empty, share a byte.
fn share(one: &Range<u64>, other: &Range<u64>) -> bool {
    one.start < other.end && other.start < one.end
}

fn block_at(image: &[u8], place: u64) -> Block {
    Block { place, count: number16(image, place).into(), next: number32(image, place + 2).into() }
}

/// All slots of a block that lies inside the image.
fn slots_of<'a>(image: &'a [u8], block: &'a Block) -> impl Iterator<Item = Slot> + 'a {
    (0..block.count).map(|index| slot_at(image, block.place + BLOCK_HEAD + SLOT_SIZE * index))
}

pub fn slot_at(image: &[u8], place: u64) -> Slot {
    Slot {
        place,
        tag: number16(image, place),
        reference: number16(image, place + 2),
        offset: number32(image, place + 4),
        length: number32(image, place + 8),
    }
}

fn number16(image: &[u8], place: u64) -> u16 {
    let place = place as usize;
    u16::from_be_bytes([image[place], image[place + 1]])
}

fn number32(image: &[u8], place: u64) -> u32 {
    let place = place as usize;
    u32::from_be_bytes([image[place], image[place + 1], image[place + 2], image[place + 3]])
}

fn refuse<T>(number: u64, place: u64) -> Result<T, Refusal> {
    Err(Refusal { number, place })
}
