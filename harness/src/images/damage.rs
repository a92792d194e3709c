//! Damaged files: a well-formed file with one thing changed, at times two or three, aimed at one rule after the other. Some
//! changes come close to a fault without being one.

use super::draft::{absurd_offset, well_formed, Draft, Size, SLOT_SIZE};
use crate::random::Random;
use crate::reader::{base_tag, EXTENDED, FREE, MACHINE_TYPE, UNSTORED};

type Damage = fn(&mut Random, &mut Draft);

const DAMAGES: [Damage; 26] = [
    cut_short,
    other_first_bytes,
    count_a_little_more,
    count_far_more,
    next_back,
    next_near_the_end,
    next_into_a_block,
    next_on_the_last_byte,
    next_just_before_a_block,
    next_onto_the_header,
    next_anywhere,
    bad_tag,
    odd_tag,
    element_at_the_end,
    element_past_32_bits,
    element_on_the_header,
    element_on_a_block,
    element_beside_a_block,
    element_empty,
    element_unstored,
    element_almost_unstored,
    pair_twice,
    pair_twice_unstored,
    machine_type_twice,
    pair_almost_twice,
    bytes_flipped,
];

pub fn damaged(random: &mut Random) -> Vec<u8> {
    let size = match random.below(5000) {
        0 => Size::Large,
        1..=100 => Size::Medium,
        _ => Size::Small,
    };
    let mut draft = well_formed(random, size);
    let times = random.pick(&[1, 1, 1, 1, 1, 2, 2, 3]);
    for _ in 0..times {
        let damage = random.pick(&DAMAGES);
        damage(random, &mut draft);
    }
    draft.bytes
}

fn cut_short(random: &mut Random, draft: &mut Draft) {
    let n = draft.bytes.len();
    let block = draft.blocks[any_block(random, draft)];
    let anywhere = random.below(n + 1);
    let in_head = block.place + random.below(7);
    let in_header = random.below(5);
    let cut = random.pick(&[anywhere, in_head, block.end().saturating_sub(1), n.saturating_sub(1), in_header]);
    draft.bytes.truncate(cut);
}

fn other_first_bytes(random: &mut Random, draft: &mut Draft) {
    if let Some(byte) = draft.bytes.get_mut(random.below(4)) {
        *byte ^= 1 << random.below(8);
    }
}

fn count_a_little_more(random: &mut Random, draft: &mut Draft) {
    let block = any_block(random, draft);
    let count = draft.blocks[block].count + random.between(1, 3);
    draft.put_count(block, count as u16);
}

fn count_far_more(random: &mut Random, draft: &mut Draft) {
    let block = any_block(random, draft);
    let others: usize = draft.slots().len() - draft.blocks[block].count;
    let start = draft.blocks[block].slot(0);
    let inside = draft.bytes.len().saturating_sub(start) / SLOT_SIZE;
    let most = 4096_usize.saturating_sub(others);
    let count = random.pick(&[inside, inside + 1, most, most + 1, 4096, 4097, 65535]);
    draft.put_count(block, count as u16);
}

/// The next field names some block, mostly one at or before its own.
fn next_back(random: &mut Random, draft: &mut Draft) {
    let from = any_block(random, draft);
    let to = if random.once_in(5) { any_block(random, draft) } else { random.below(from + 1) };
    draft.put_next(from, draft.blocks[to].place as u32);
}

fn next_near_the_end(random: &mut Random, draft: &mut Draft) {
    let from = any_block(random, draft);
    let n = draft.bytes.len() as u32;
    let near = n.saturating_sub(8) + random.below(12) as u32;
    let next = random.pick(&[near, near, near, 1 << 31, u32::MAX - 5, u32::MAX]);
    draft.put_next(from, next);
}

/// The next field names an empty block inside the slots of a block.
fn next_into_a_block(random: &mut Random, draft: &mut Draft) {
    let slots = draft.slots();
    if slots.is_empty() {
        return;
    }
    let slot = random.pick(&slots);
    draft.put_tag(slot, FREE);
    draft.put(slot + 2, &[0; 10]);
    let from = any_block(random, draft);
    draft.put_next(from, (slot + 2 + random.below(5)) as u32);
}

/// The next field names an empty block that begins on the last byte of a block, or right behind it.
fn next_on_the_last_byte(random: &mut Random, draft: &mut Draft) {
    let block = draft.blocks[any_block(random, draft)];
    if block.count == 0 {
        return;
    }
    let last = block.end() - 1;
    draft.put_tag(block.slot(block.count - 1), FREE);
    draft.put(last, &[0]);
    let from = any_block(random, draft);
    empty_block(draft, last + random.below(2), from);
}

/// The next field names an empty block that ends right before a block or a few bytes into it.
fn next_just_before_a_block(random: &mut Random, draft: &mut Draft) {
    let block = draft.blocks[any_block(random, draft)];
    let place = block.place.saturating_sub(random.between(1, 6));
    let from = any_block(random, draft);
    empty_block(draft, place, from);
}

/// Makes an empty last block of the bytes at a place, as far as they lie in no block, and links it.
fn empty_block(draft: &mut Draft, place: usize, from: usize) {
    if draft.bytes.len() < place + 6 {
        draft.bytes.resize(place + 6, 0);
    }
    for byte in place..place + 6 {
        if !draft.in_directory(byte) {
            draft.put(byte, &[0]);
        }
    }
    draft.put_next(from, place as u32);
}

/// The next field names a block that begins in the first four bytes, in a file just long enough for it, or not quite. At 1
/// the count reads 787, at 3 it reads 256 and at 2 it is too large for any file.
fn next_onto_the_header(random: &mut Random, draft: &mut Draft) {
    let place = random.pick(&[1, 2, 3, 3]);
    let from = any_block(random, draft);
    draft.put_next(from, place as u32);
    let count = draft.get16(place).unwrap_or(0);
    if place != 2 && !random.once_in(4) {
        let end = place + 6 + SLOT_SIZE * usize::from(count);
        let n = random.pick(&[end - 1, end, end, end + 7]);
        draft.bytes.resize(n.max(draft.bytes.len()), 0);
    }
}

fn next_anywhere(random: &mut Random, draft: &mut Draft) {
    let from = any_block(random, draft);
    let next = random.below(draft.bytes.len() + 8);
    draft.put_next(from, next as u32);
}

fn bad_tag(random: &mut Random, draft: &mut Draft) {
    let tag = random.pick(&[0, EXTENDED, EXTENDED + FREE]);
    if let Some(slot) = any_slot(random, draft) {
        draft.put_tag(slot, tag);
    }
}

fn odd_tag(random: &mut Random, draft: &mut Draft) {
    let tag = random.pick(&[1, 2, 107, 16383, 16386, 16491, 32767, 32768, 32769, 49152, 49153, 65535]);
    if let Some(slot) = any_slot(random, draft) {
        draft.put_tag(slot, tag);
    }
}

/// An element that ends with the file, or starts or ends past it.
fn element_at_the_end(random: &mut Random, draft: &mut Draft) {
    let n = draft.bytes.len() as u32;
    let length = random.between(1, 3) as u32;
    let past = random.below(3) as u32;
    let offset = (n + past).saturating_sub(length);
    let far = random.u32();
    let (offset, length) = random.pick(&[(offset, length), (offset, length), (n, length), (far, length), (4, far)]);
    put_element(random, draft, offset, length);
}

/// Offset and length whose sum, in 32 bits, would be small.
fn element_past_32_bits(random: &mut Random, draft: &mut Draft) {
    let end = random.below(draft.bytes.len() + 1) as u32;
    let offset = random.pick(&[u32::MAX, u32::MAX - 3, 1 << 31, 34]).max(end + 1);
    put_element(random, draft, offset, end.wrapping_sub(offset));
}

fn element_on_the_header(random: &mut Random, draft: &mut Draft) {
    let n = draft.bytes.len() as u32;
    let offset = random.below(4) as u32;
    let length = random.pick(&[1, 2, 4, 5, n.saturating_sub(offset).max(1)]);
    put_element(random, draft, offset, length);
}

/// An element that shares with a block its first byte, its last byte, some bytes or all.
fn element_on_a_block(random: &mut Random, draft: &mut Draft) {
    let block = draft.blocks[any_block(random, draft)];
    let before = block.place - random.below(block.place.min(9));
    let after = block.end() + random.below(9);
    let within = random.between(block.place, block.end() - 1);
    let (start, end) = random.pick(&[
        (before, block.place + 1),
        (block.end() - 1, after.max(block.end())),
        (before, after),
        (within, within + 1),
        (block.place, block.end()),
    ]);
    put_element(random, draft, start as u32, (end - start) as u32);
}

/// An element that ends where a block starts, or starts where a block ends.
fn element_beside_a_block(random: &mut Random, draft: &mut Draft) {
    let block = draft.blocks[any_block(random, draft)];
    let length = random.between(1, 3);
    let start = if random.once_in(2) { block.end() } else { block.place.saturating_sub(length) };
    put_element(random, draft, start as u32, length as u32);
}

fn element_empty(random: &mut Random, draft: &mut Draft) {
    let offset = absurd_offset(random, draft);
    put_element(random, draft, offset, 0);
}

/// An element that is not stored yet, or a machine type with the same fields, which is empty.
fn element_unstored(random: &mut Random, draft: &mut Draft) {
    let Some(slot) = any_slot(random, draft) else { return };
    draft.put_element(slot, UNSTORED, UNSTORED);
    if random.once_in(6) {
        draft.put_tag(slot, random.pick(&[MACHINE_TYPE, MACHINE_TYPE + EXTENDED]));
    }
}

/// An offset or a length of all ones, the other one not quite or far from it.
fn element_almost_unstored(random: &mut Random, draft: &mut Draft) {
    let n = draft.bytes.len() as u32;
    let other = random.pick(&[0, 1, 4, n, 1 << 31, UNSTORED - 1, UNSTORED - 1]);
    let (offset, length) = random.pick(&[(UNSTORED, other), (other, UNSTORED)]);
    put_element(random, draft, offset, length);
}

/// Gives a slot the pair of a slot before it, at times in the other form of its tag.
fn pair_twice(random: &mut Random, draft: &mut Draft) {
    if let Some((earlier, later)) = two_slots(random, draft) {
        repeat_pair(random, draft, earlier, later);
    }
}

/// The same, one of the two elements or both not stored yet.
fn pair_twice_unstored(random: &mut Random, draft: &mut Draft) {
    let Some((earlier, later)) = two_slots(random, draft) else { return };
    repeat_pair(random, draft, earlier, later);
    for slot in random.pick(&[[earlier, earlier], [later, later], [earlier, later]]) {
        draft.put_element(slot, UNSTORED, UNSTORED);
    }
}

fn repeat_pair(random: &mut Random, draft: &mut Draft, earlier: usize, later: usize) {
    let base = base_tag(draft.get16(earlier).unwrap_or(0));
    let extended = if base < EXTENDED { base + EXTENDED } else { base };
    let tag = random.pick(&[base, extended]);
    let reference = draft.get16(earlier + 2).unwrap_or(0);
    draft.put_tag(later, tag);
    draft.put_reference(later, reference);
}

/// Two machine types, with any references.
fn machine_type_twice(random: &mut Random, draft: &mut Draft) {
    let Some((earlier, later)) = two_slots(random, draft) else { return };
    for slot in [earlier, later] {
        let tag = random.pick(&[MACHINE_TYPE, MACHINE_TYPE + EXTENDED]);
        let reference = random.below(3) as u16;
        draft.put_tag(slot, tag);
        draft.put_reference(slot, reference);
    }
}

/// Gives a slot a pair that only looks like that of a slot before it: a neighbouring tag, or one with other top bits.
fn pair_almost_twice(random: &mut Random, draft: &mut Draft) {
    let Some((earlier, later)) = two_slots(random, draft) else { return };
    let base = base_tag(draft.get16(earlier).unwrap_or(0));
    let tag = random.pick(&[base ^ 0x8000, base ^ 0xc000, base.wrapping_add(1), base.wrapping_sub(1)]);
    let reference = draft.get16(earlier + 2).unwrap_or(0);
    draft.put_tag(later, tag);
    draft.put_reference(later, reference);
}

fn bytes_flipped(random: &mut Random, draft: &mut Draft) {
    for _ in 0..random.between(1, 4) {
        if draft.bytes.is_empty() {
            return;
        }
        let place = random.below(draft.bytes.len());
        draft.bytes[place] ^= random.pick(&[1, 2, 16, 64, 128, 255]);
    }
}

fn any_block(random: &mut Random, draft: &Draft) -> usize {
    random.below(draft.blocks.len())
}

fn any_slot(random: &mut Random, draft: &Draft) -> Option<usize> {
    let slots = draft.live_slots();
    (!slots.is_empty()).then(|| random.pick(&slots))
}

/// Two live slots in chain order.
fn two_slots(random: &mut Random, draft: &Draft) -> Option<(usize, usize)> {
    let slots = draft.live_slots();
    if slots.len() < 2 {
        return None;
    }
    let later = random.between(1, slots.len() - 1);
    Some((slots[random.below(later)], slots[later]))
}

fn put_element(random: &mut Random, draft: &mut Draft, offset: u32, length: u32) {
    if let Some(slot) = any_slot(random, draft) {
        draft.put_element(slot, offset, length);
    }
}
