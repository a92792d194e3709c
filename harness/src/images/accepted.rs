//! Files that open, to begin a sequence of edits with.

use super::draft::{fill_slots, lay_out, well_formed, Draft, Size, SLOT_SIZE};
use crate::editor::FORMS;
use crate::random::Random;
use crate::reader::{FIRST_BYTES, FREE, MOST_BLOCKS};

/// No slot is free.
const NONE_FREE: usize = usize::MAX;

pub fn small(random: &mut Random) -> Vec<u8> {
    let size = if random.once_in(12) { Size::Medium } else { Size::Small };
    well_formed(random, size).bytes
}

/// The shortest file: one block without slots.
pub fn shortest() -> Vec<u8> {
    [&FIRST_BYTES[..], &[0; 6]].concat()
}

/// A file whose last bytes are a free slot that ends like a trailer. At times it is the only free slot.
pub fn ends_like_a_trailer(random: &mut Random) -> Vec<u8> {
    let counts: Vec<usize> = (0..random.between(1, 3)).map(|_| random.between(1, 4)).collect();
    let mut draft = lay_out(random, &counts);
    let end = draft.blocks.iter().map(|block| block.end()).max().unwrap_or(0);
    draft.bytes.truncate(end);
    let free = random.pick(&[3, NONE_FREE, NONE_FREE]);
    fill_slots(random, &mut draft, free);
    draft.put_tag(end - SLOT_SIZE, FREE);
    let closing = random.pick(&FORMS).closing();
    draft.put(end - closing.len(), &closing);
    draft.bytes
}

/// Close to 256 blocks, most of them without slots.
pub fn many_blocks(random: &mut Random) -> Vec<u8> {
    let blocks = MOST_BLOCKS - random.pick(&[0, 0, 1, 1, 2, 5]);
    let counts: Vec<usize> = (0..blocks).map(|_| usize::from(random.once_in(60))).collect();
    let free = random.pick(&[5, NONE_FREE]);
    filled(random, &counts, free).bytes
}

/// Close to 4,096 slots, or as many as a further block leaves room for, none of them free.
pub fn many_slots(random: &mut Random) -> Vec<u8> {
    let slots = random.pick(&[4079, 4080, 4080, 4080, 4081, 4081, 4096]);
    let first = random.below(slots);
    filled(random, &[first, slots - first], NONE_FREE).bytes
}

fn filled(random: &mut Random, counts: &[usize], free: usize) -> Draft {
    let mut draft = lay_out(random, counts);
    fill_slots(random, &mut draft, free);
    draft
}
