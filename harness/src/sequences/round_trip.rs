//! Edits of a file by several desks that are all undone again, so that it ends as it began.

use super::desks::Desks;
use super::requests::{self, Mix, ALL_KINDS};
use crate::compare::edits::{first_difference, Lending};
use crate::compare::Difference;
use crate::editor::{Edit, Kind, Request};
use crate::random::Random;
use crate::reader::{self, Directory};
use crate::tally::Tally;

const RANDOM_CALLS: usize = 24;
/// The history of a long file holds fewer edits, so that it fits in memory.
const MOST_HISTORY: usize = 1 << 26;
const ROOM: usize = 8000;
const ROOM_OF_AN_ADD: usize = 37;
const TAG: u16 = 40_001;

/// Edits a file that opens, with an undo here and there, then undoes what is left.
pub fn round_trip(file: &[u8], random: &mut Random, tally: &mut Tally) -> Result<(), String> {
    let Ok(directory) = reader::open(file) else { return Ok(()) };
    let rest = random.bytes(ROOM + ROOM_OF_AN_ADD * directory.slots.len());
    let mut lending = Lending::new(file, &rest, random.below(16));
    tally.sequences += 1;
    let played = edit(&mut lending, &directory, random, tally).and_then(|()| undo_all(&mut lending, tally));
    played.map_err(|difference| difference.to_string())?;
    match first_difference(lending.file(), file) {
        Some(difference) => Err(format!("after all edits were undone {difference}")),
        None => Ok(()),
    }
}

/// Adds until a block is appended, replaces and removes each element, then calls at random.
fn edit(
    lending: &mut Lending,
    directory: &Directory,
    random: &mut Random,
    tally: &mut Tally,
) -> Result<(), Difference> {
    let most = (MOST_HISTORY / lending.capacity()).max(2);
    let mut desks = Desks::new(random);
    let (adds, others) = (adds(directory, desks.next(random)), other_edits(directory, desks.next(random)));
    for edit in adds.take(most).chain(others.take(most)) {
        lending.call(&Request::Edit(edit), tally)?;
    }
    for _ in 0..RANDOM_CALLS.min(most) {
        let undos = if lending.history().edits() == 0 { 0 } else { 40 };
        let mix = Mix { undos, kinds: ALL_KINDS };
        let request = requests::request(random, lending.file(), lending.capacity(), mix, &mut desks);
        lending.call(&request, tally)?;
    }
    Ok(())
}

fn undo_all(lending: &mut Lending, tally: &mut Tally) -> Result<(), Difference> {
    while let Some(desk) = lending.history().newest_desk() {
        lending.call(&Request::Undo { desk }, tally)?;
    }
    Ok(())
}

/// As many adds as there are free slots, and one more.
fn adds(directory: &Directory, desk: u32) -> impl Iterator<Item = Edit> + '_ {
    let free = directory.slots.len() - directory.live().count();
    let absent = (0..=u16::MAX).filter(|reference| directory.find(TAG, *reference).is_err());
    let add = move |reference| Edit { desk, kind: Kind::Add, tag: TAG, reference, data: vec![0x2a] };
    absent.take(free + 1).map(add)
}

/// Other data for each element, then no element.
fn other_edits(directory: &Directory, desk: u32) -> impl Iterator<Item = Edit> + '_ {
    directory.live().flat_map(move |slot| {
        let edit = |kind, data| Edit { desk, kind, tag: slot.base_tag(), reference: slot.reference, data };
        [edit(Kind::Replace, b"closed".to_vec()), edit(Kind::Remove, Vec::new())]
    })
}
