//! Which desk makes a call: one for a while, then another.

use crate::editor::{Form, Trailer, OLD_DESK};
use crate::random::Random;

/// Small numbers, large ones, and those whose bytes are the closing ones of a trailer.
const DESKS: [u32; 15] = [
    0,
    0,
    1,
    2,
    3,
    9,
    256,
    65_535,
    65_536,
    1 << 24,
    1 << 31,
    u32::MAX - 1,
    u32::MAX,
    u32::from_be_bytes(Form::Old.closing()),
    u32::from_be_bytes(Form::Long.closing()),
];

/// The desks of a file, at most three, and the one whose turn it is.
pub struct Desks {
    all: [u32; 3],
    present: u32,
}

impl Desks {
    pub fn new(random: &mut Random) -> Desks {
        let all = [(); 3].map(|()| any(random));
        Desks { all, present: all[0] }
    }

    /// The desk whose turn it is: mostly the one before.
    pub fn next(&mut self, random: &mut Random) -> u32 {
        if random.once_in(4) {
            self.present = random.pick(&self.all);
        }
        self.present
    }

    /// The desk of an undo: mostly the one that the newest trailer of a file is of, at times one that differs from it in a bit.
    pub fn of_undo(&mut self, random: &mut Random, file: &[u8]) -> u32 {
        let newest = Trailer::of(file).map_or(OLD_DESK, |trailer| trailer.desk);
        match random.below(8) {
            0..=4 => newest,
            5 => newest ^ (1 << random.below(32)),
            _ => self.next(random),
        }
    }
}

pub fn any(random: &mut Random) -> u32 {
    random.pick(&DESKS)
}
