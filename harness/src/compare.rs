//! Compares the library's answers with the reader's. Each group of calls has a module of its own below this one.

pub mod directory;
pub mod edits;
pub mod packing;
pub mod records;
pub mod storage;
pub mod vset;

use crate::lent::{surround, Lent};
use crate::random::Random;
use crate::reader::{self, Directory, Refusal};
use crate::tally::{Call, Tally};
use hdf4_sys::Answer;
use std::fmt;

/// A call on which the library differs from reader, editor or history, or that altered what it may not.
#[derive(Debug)]
pub struct Difference {
    call: Call,
    arguments: String,
    library: String,
    judge: &'static str,
    expected: String,
}

pub type Outcome = Result<(), Difference>;

/// Which pairs are looked up in an image.
#[derive(Clone, Copy, PartialEq, Eq)]
pub enum Pairs {
    Some,
    All,
}

/// One image lent to the library, with what the reader makes of it.
pub struct Trial<'a> {
    pub lent: Lent<'a>,
    pub directory: Result<Directory, Refusal>,
    pub random: &'a mut Random,
    pub tally: &'a mut Tally,
}

/// Compares all calls on one image.
pub fn compare(image: &[u8], pairs: Pairs, random: &mut Random, tally: &mut Tally) -> Outcome {
    let (memory, range) = surround(image, random.below(16));
    let lent = Lent::watch_all(&memory, range);
    let directory = reader::open(image);
    compare_lent(Trial { lent, directory, random, tally }, pairs)
}

/// Compares all calls on an image too large to copy.
pub fn compare_huge(image: &[u8], random: &mut Random, tally: &mut Tally) -> Outcome {
    let lent = Lent::watch_ends(image, 0..image.len());
    let directory = reader::open(image);
    let mut trial = Trial { lent, directory, random, tally };
    records::compare_each(&mut trial)?;
    compare_lent(trial, Pairs::Some)
}

fn compare_lent(mut trial: Trial, pairs: Pairs) -> Outcome {
    trial.tally.files += 1;
    directory::compare(&mut trial, pairs)?;
    storage::compare(&mut trial, pairs)?;
    records::compare(&mut trial, pairs)
}

/// Compares the calls on records alone, on each record of an image.
pub fn compare_records(image: &[u8], random: &mut Random, tally: &mut Tally) -> Outcome {
    let (memory, range) = surround(image, random.below(16));
    let lent = Lent::watch_all(&memory, range);
    let directory = reader::open(image);
    tally.files += 1;
    records::compare_all(&mut Trial { lent, directory, random, tally }, vset::FEW_VALUES)
}

/// The same with an image too large to copy.
pub fn compare_huge_records(image: &[u8], random: &mut Random, tally: &mut Tally) -> Outcome {
    let lent = Lent::watch_ends(image, 0..image.len());
    let directory = reader::open(image);
    tally.files += 1;
    records::compare_all(&mut Trial { lent, directory, random, tally }, vset::FEW_VALUES)
}

impl Trial<'_> {
    /// Both answers must be equal and the lent image as it was.
    pub fn same<A: Answer>(&mut self, call: Call, arguments: &[usize], library: A, reader: A) -> Outcome {
        if library != reader {
            return differ(call, arguments, format!("{library:?}"), format!("{reader:?}"));
        }
        if !self.lent.is_unchanged() {
            return differ(call, arguments, "altered the lent image".into(), "left it as it was".into());
        }
        self.tally.count(call, reader.number());
        Ok(())
    }
}

/// The difference of one call from the reader, both sides in words.
pub fn differ(call: Call, arguments: &[usize], library: String, reader: String) -> Outcome {
    Err(Difference { call, arguments: format!("{arguments:?}"), library, judge: "reader", expected: reader })
}

impl fmt::Display for Difference {
    fn fmt(&self, out: &mut fmt::Formatter) -> fmt::Result {
        writeln!(out, "call    {:?} {}", self.call, self.arguments)?;
        writeln!(out, "library {}", self.library)?;
        write!(out, "{:7} {}", self.judge, self.expected)
    }
}
