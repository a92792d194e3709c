//! Files at the limits of 256 blocks and 4,096 slots, and just past them.

use super::draft::{fill_slots, lay_out, Draft};
use crate::random::Random;

const SLOTS: usize = 4096;

/// From 254 to 258 blocks. At times the last next field leads back, outside or into the header, or an element lies on the
/// last block.
pub fn many_blocks(random: &mut Random) -> Vec<u8> {
    let blocks = random.pick(&[254, 255, 256, 256, 256, 257, 258]);
    let counts: Vec<usize> = (0..blocks).map(|_| usize::from(random.once_in(20))).collect();
    let mut draft = lay_out(random, &counts);
    fill_slots(random, &mut draft, 5);
    match random.below(3) {
        0 => lead_astray(random, &mut draft),
        1 => lie_on_last_block(random, &mut draft),
        _ => {}
    }
    draft.bytes
}

/// The next field of the last block leads to any block, itself, outside or into the header.
fn lead_astray(random: &mut Random, draft: &mut Draft) {
    let last = draft.blocks.len() - 1;
    let any = draft.blocks[random.below(last)].place;
    let n = draft.bytes.len();
    let next = random.pick(&[any, draft.blocks[last].place, n - 5, n, 2]);
    draft.put_next(last, next as u32);
}

fn lie_on_last_block(random: &mut Random, draft: &mut Draft) {
    let slots = draft.live_slots();
    let Some(last) = draft.blocks.last() else { return };
    if !slots.is_empty() {
        let offset = random.pick(&[last.place, last.end() - 1, last.end()]);
        draft.put_element(random.pick(&slots), offset as u32, 1);
    }
}

/// From 4,094 to 4,098 slots, most of them free. At times the last block is cut, or claims far more slots.
pub fn many_slots(random: &mut Random) -> Vec<u8> {
    let counts = split(random);
    let mut draft = lay_out(random, &counts);
    fill_mostly_free(random, &mut draft);
    match random.below(6) {
        0 => cut_last_block(random, &mut draft),
        1 => draft.put_count(counts.len() - 1, random.pick(&[4097, 8192, 65535])),
        _ => {}
    }
    draft.bytes
}

/// Slot counts of a few blocks that together are at the limit.
fn split(random: &mut Random) -> Vec<usize> {
    let mut left = random.between(SLOTS - 2, SLOTS + 2);
    let mut counts = Vec::new();
    for _ in 0..random.below(4) {
        let count = random.below(left);
        counts.push(count);
        left -= count;
    }
    counts.push(left);
    counts
}

/// All slots free but a few; once in a while most or all are live, which takes long to judge.
fn fill_mostly_free(random: &mut Random, draft: &mut Draft) {
    if random.once_in(32) {
        let free = random.pick(&[5, usize::MAX]);
        return fill_slots(random, draft, free);
    }
    fill_slots(random, draft, 5);
    for place in draft.slots() {
        if !random.once_in(200) {
            draft.put_tag(place, 1);
        }
    }
}

fn cut_last_block(random: &mut Random, draft: &mut Draft) {
    let Some(last) = draft.blocks.last() else { return };
    let cut = random.between(last.place, last.end());
    draft.bytes.truncate(cut);
}
