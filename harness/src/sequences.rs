//! Random sequences of edits and undos on a file at the front of a buffer, refused calls among them.

mod desks;
mod requests;
pub mod round_trip;
mod starts;
mod trailers;

use crate::compare::edits::Lending;
use crate::compare::Difference;
use crate::editor::{Request, FORMS};
use crate::hex_dump;
use crate::random::Random;
use crate::tally::Tally;
use desks::Desks;
use hdf4_sys::EditAnswer;
use requests::Mix;
use starts::Start;

/// One call in so many is given a length that no file in the buffer can have.
const ABSURD_LENGTH_EVERY: usize = 25;

/// A sequence in play.
struct Sequence<'a> {
    random: Random,
    lending: Lending,
    desks: Desks,
    mix: Mix,
    tally: &'a mut Tally,
}

/// Plays the sequence with an index; at a difference, the seed and the index say how to play it again.
pub fn compare(seed: u64, index: u64, tally: &mut Tally) -> Result<(), String> {
    play(seed, index, tally, false)
}

/// Plays one sequence and prints its start and its calls.
pub fn show(seed: u64, index: u64, tally: &mut Tally) -> Result<(), String> {
    play(seed, index, tally, true)
}

fn play(seed: u64, index: u64, tally: &mut Tally, show: bool) -> Result<(), String> {
    let mut random = Random::new(!seed, index);
    let Start { kind, file, calls, mix } = starts::start(&mut random, index);
    let rest = rest(&mut random);
    if show {
        println!("{kind}, {} bytes in a buffer of {}\n{}", file.len(), file.len() + rest.len(), hex_dump(&file));
    }
    tally.sequences += 1;
    let lending = Lending::new(&file, &rest, random.below(16));
    let desks = Desks::new(&mut random);
    let mut sequence = Sequence { random, lending, desks, mix, tally };
    for call in 1..=calls {
        let at = |difference: Difference| format!("{difference}\nseed {seed} sequence {index}, call {call}: {kind}");
        let (n, request, answer) = sequence.step().map_err(at)?;
        if show {
            println!("{:?} {request} with n = {n}: {answer:?}", request.call());
        }
    }
    Ok(())
}

impl Sequence<'_> {
    /// One call: the length given to it, the call and its answer.
    fn step(&mut self) -> Result<(u64, Request, EditAnswer), Difference> {
        let (length, capacity) = (self.lending.file().len(), self.lending.capacity());
        let request = requests::request(&mut self.random, self.lending.file(), capacity, self.mix, &mut self.desks);
        if self.random.once_in(ABSURD_LENGTH_EVERY) {
            let n = requests::absurd_length(&mut self.random, length, capacity);
            let answer = self.lending.call_with(n, &request, self.tally)?;
            return Ok((n, request, answer));
        }
        let answer = self.lending.call(&request, self.tally)?;
        Ok((length as u64, request, answer))
    }
}

/// The bytes of a buffer behind the file: any, zeros or ones, at times ending like a trailer.
fn rest(random: &mut Random) -> Vec<u8> {
    let count = match random.below(20) {
        0 => 0,
        1 | 2 => random.below(32),
        3..=5 => random.between(32, 64),
        6..=8 => random.between(198, 300),
        9..=15 => random.below(2000),
        _ => random.below(6000),
    };
    let mut bytes = match random.below(4) {
        0 => vec![0; count],
        1 => vec![0xff; count],
        _ => random.bytes(count),
    };
    let closing = random.pick(&FORMS).closing();
    if count >= closing.len() && random.once_in(6) {
        bytes[count - closing.len()..].copy_from_slice(&closing);
    }
    bytes
}
