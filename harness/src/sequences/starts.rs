//! What a sequence starts with: a file, how many calls follow, and what they are drawn from.

use super::requests::{Mix, ALL_KINDS};
use super::trailers::{self, damaged, edited, made_up};
use crate::editor::Kind;
use crate::images::{self, accepted};
use crate::random::Random;

/// One sequence in so many has a directory close to 4,096 slots; a call on such a file takes long.
const MANY_SLOTS_EVERY: u64 = 3000;
const MANY_SLOTS_CALLS: usize = 5;

const MOST_CALLS: usize = 64;
const MOST_CALLS_AFTER_TRAILER: usize = 24;

pub struct Start {
    pub kind: &'static str,
    pub file: Vec<u8>,
    pub calls: usize,
    pub mix: Mix,
}

pub fn start(random: &mut Random, index: u64) -> Start {
    if index.is_multiple_of(MANY_SLOTS_EVERY) {
        return many_slots(random);
    }
    match random.below(100) {
        0..=32 => single(random),
        33..=53 => plain(random),
        54..=65 => edited_before(random),
        66..=79 => with_trailer(random, "damaged trailer", after_damaged_edits),
        80..=95 => with_trailer(random, "trailer made up", after_made_up_edit),
        96..=97 => with_trailer(random, "shortest with a trailer", trailers::shortest),
        _ => many_blocks(random),
    }
}

/// A single call on a file of any kind, at times with fewer or more bytes than it has; most do not open.
fn single(random: &mut Random) -> Start {
    let mut file = images::image(random).bytes;
    if random.once_in(6) {
        file.extend(random.bytes(40));
        file.truncate(random.below(file.len() + 1));
    }
    Start { kind: "single call", file, calls: 1, mix: undos(25) }
}

fn plain(random: &mut Random) -> Start {
    let mix = undos(random.pick(&[5, 25, 45, 60]));
    Start { kind: "no edits before", file: base(random), calls: random.between(1, MOST_CALLS), mix }
}

fn edited_before(random: &mut Random) -> Start {
    let mix = undos(random.pick(&[25, 45, 60]));
    Start { kind: "edited before", file: after_edits(random), calls: random.between(1, MOST_CALLS), mix }
}

/// A file with some trailer: mostly undone.
fn with_trailer(random: &mut Random, kind: &'static str, make: fn(&mut Random) -> Vec<u8>) -> Start {
    Start { kind, file: make(random), calls: random.between(1, MOST_CALLS_AFTER_TRAILER), mix: undos(60) }
}

fn many_blocks(random: &mut Random) -> Start {
    let calls = random.between(1, MOST_CALLS);
    Start { kind: "many blocks", file: accepted::many_blocks(random), calls, mix: undos(10) }
}

fn many_slots(random: &mut Random) -> Start {
    let mix = Mix { undos: 20, kinds: &[Kind::Add] };
    Start { kind: "many slots", file: accepted::many_slots(random), calls: MANY_SLOTS_CALLS, mix }
}

fn undos(undos: usize) -> Mix {
    Mix { undos, kinds: ALL_KINDS }
}

fn base(random: &mut Random) -> Vec<u8> {
    match random.below(12) {
        0 => accepted::ends_like_a_trailer(random),
        1 => accepted::shortest(),
        _ => accepted::small(random),
    }
}

fn after_edits(random: &mut Random) -> Vec<u8> {
    let file = base(random);
    edited(random, file)
}

fn after_damaged_edits(random: &mut Random) -> Vec<u8> {
    let file = after_edits(random);
    damaged(random, file)
}

fn after_made_up_edit(random: &mut Random) -> Vec<u8> {
    let file = if random.once_in(3) { after_edits(random) } else { base(random) };
    let file = made_up(random, file);
    match random.below(3) {
        0 => damaged(random, file),
        _ => file,
    }
}
