//! Files whose references stand in any order, under tags that are easily taken for one another, and at times with a twin.

use super::draft::{lay_out, Draft, Slot};
use crate::random::Random;
use crate::reader::{base_tag, EXTENDED, FREE, MACHINE_TYPE};
use std::collections::BTreeSet;

/// How far tags or references lie apart: numbers that tables of tags and references may be as long as.
const STEPS: [usize; 9] = [1, 1, 3, 127, 251, 256, 1024, 2048, 4096];

/// A tag and a reference, the tag as it is without extension.
type Key = (u16, u16);

pub fn any_order(random: &mut Random) -> Vec<u8> {
    let mut keys: Vec<Key> = keys(random).into_iter().collect();
    match random.below(3) {
        0 => keys.reverse(),
        1 => random.shuffle(&mut keys),
        _ => keys.sort_by_key(|(tag, reference)| (*reference, *tag)),
    }
    let counts = split(random, keys.len());
    let mut draft = lay_out(random, &counts);
    for (place, key) in draft.slots().into_iter().zip(keys) {
        put_empty(random, &mut draft, place, key);
    }
    if random.once_in(2) {
        put_twin(random, &mut draft);
    }
    draft.bytes
}

/// Distinct pairs of a few tags and references, each a step from the next.
fn keys(random: &mut Random) -> BTreeSet<Key> {
    let most = random.pick(&[8, 30, 100, 300]);
    let (tags, references) = (random.between(1, 40), random.between(1, most));
    let (tag_step, reference_step) = (random.pick(&STEPS), random.pick(&STEPS));
    let (first_tag, first_reference) = (random.u16(), random.u16());
    let mut keys = BTreeSet::new();
    for _ in 0..most {
        let tag = first_tag.wrapping_add((tag_step * random.below(tags)) as u16);
        let reference = first_reference.wrapping_add((reference_step * random.below(references)) as u16);
        let base = base_tag(tag);
        if ![0, FREE, MACHINE_TYPE].contains(&base) {
            keys.insert((base, reference));
        }
    }
    keys
}

/// The slot counts of a few blocks that have so many slots together.
fn split(random: &mut Random, slots: usize) -> Vec<usize> {
    let mut left = slots;
    let mut counts = Vec::new();
    for _ in 0..random.below(20) {
        let count = random.below(left / 2 + 1);
        counts.push(count);
        left -= count;
    }
    counts.push(left);
    counts
}

/// A slot without bytes, extended at times.
fn put_empty(random: &mut Random, draft: &mut Draft, place: usize, (base, reference): Key) {
    let tag = if base < EXTENDED && random.once_in(3) { base + EXTENDED } else { base };
    draft.put_slot(place, &Slot { tag, reference, offset: 0, length: 0 });
}

/// One slot gets the tag and the reference of an earlier one.
fn put_twin(random: &mut Random, draft: &mut Draft) {
    let slots = draft.slots();
    if slots.len() < 2 {
        return;
    }
    let later = random.between(1, slots.len() - 1);
    let earlier = slots[random.below(later)];
    if let (Some(tag), Some(reference)) = (draft.get16(earlier), draft.get16(earlier + 2)) {
        put_empty(random, draft, slots[later], (base_tag(tag), reference));
    }
}
