//! Opening, listing and lookup.

use super::{differ, Outcome, Pairs, Trial};
use crate::random::Random;
use crate::reader::{base_tag, Directory, Refusal, Slot, EXTENDED, SMALL};
use crate::tally::Call;
use hdf4_sys::{self as library, Answer, FindAnswer, ListAnswer, OpenAnswer};

const PATTERN: u32 = 0x5a5a_c3c3;
const PAST_ROOM: usize = 8;

/// Tags that a lookup may easily get wrong.
const ODD_TAGS: [u16; 7] = [0, 1, 107, 16384, 16385, 16491, 65535];

pub fn compare(trial: &mut Trial, pairs: Pairs) -> Outcome {
    compare_open(trial)?;
    for room in rooms(trial) {
        compare_list(trial, room)?;
    }
    for (tag, reference) in pairs_of(trial, pairs) {
        compare_find(trial, tag, reference)?;
    }
    Ok(())
}

/// What opening must answer, by the reader.
pub fn expected_open(directory: &Result<Directory, Refusal>) -> OpenAnswer {
    match directory {
        Ok(directory) => OpenAnswer {
            number: 0,
            place: 0,
            blocks: directory.blocks.len() as u64,
            slots: directory.slots.len() as u64,
            live: directory.live().count() as u64,
        },
        Err(refusal) => OpenAnswer::refused(refusal.number, refusal.place),
    }
}

fn compare_open(trial: &mut Trial) -> Outcome {
    let library = library::open(trial.lent.image());
    let reader = expected_open(&trial.directory);
    if has_unstored(&trial.directory) {
        trial.tally.count_unstored(Call::Open);
    }
    trial.same(Call::Open, &[], library, reader)
}

/// Whether the image opens and names an element that is not stored yet.
fn has_unstored(directory: &Result<Directory, Refusal>) -> bool {
    directory.as_ref().is_ok_and(|directory| directory.live().any(Slot::is_unstored))
}

/// Rooms for the list: exactly enough, too little in two ways where that is possible, and more than enough.
fn rooms(trial: &mut Trial) -> Vec<usize> {
    let random = &mut trial.random;
    let needed = match &trial.directory {
        Ok(directory) => 4 * directory.live().count(),
        Err(_) => random.below(40),
    };
    let mut rooms = vec![needed, needed + random.between(1, 12)];
    if needed > 0 {
        rooms.extend([needed - 1, random.below(needed)]);
    }
    rooms
}

fn compare_list(trial: &mut Trial, room: usize) -> Outcome {
    let (reader, written) = expected_list(&trial.directory, room);
    let mut memory = vec![PATTERN; room + PAST_ROOM];
    let library = library::list(trial.lent.image(), &mut memory[..room]);
    trial.same(Call::List, &[room], library, reader)?;
    let mut expected = vec![PATTERN; room + PAST_ROOM];
    expected[..written.len()].copy_from_slice(&written);
    if memory != expected {
        return differ(Call::List, &[room], format!("wrote {memory:?}"), format!("wrote {expected:?}"));
    }
    if !written.is_empty() && has_unstored(&trial.directory) {
        trial.tally.count_unstored(Call::List);
    }
    Ok(())
}

/// What listing must answer, by the reader, and what it must write to the front of the list.
pub fn expected_list(directory: &Result<Directory, Refusal>, room: usize) -> (ListAnswer, Vec<u32>) {
    let directory = match directory {
        Ok(directory) => directory,
        Err(refusal) => return (ListAnswer::refused(refusal.number, refusal.place), Vec::new()),
    };
    let list = directory.list();
    if room < list.len() {
        return (ListAnswer::refused(SMALL, 0), Vec::new());
    }
    let elements = list.len() as u64 / 4;
    (ListAnswer { number: 0, place: 0, elements }, list)
}

fn compare_find(trial: &mut Trial, tag: u16, reference: u16) -> Outcome {
    let library = library::find(trial.lent.image(), tag, reference);
    let reader = expected_find(&trial.directory, tag, reference);
    let found = trial.directory.as_ref().ok().and_then(|directory| directory.slot(tag, reference));
    if found.is_some_and(Slot::is_unstored) {
        trial.tally.count_unstored(Call::Find);
    }
    trial.same(Call::Find, &[tag.into(), reference.into()], library, reader)
}

/// What a lookup must answer, by the reader.
pub fn expected_find(directory: &Result<Directory, Refusal>, tag: u16, reference: u16) -> FindAnswer {
    let found = match directory {
        Ok(directory) => directory.find(tag, reference),
        Err(refusal) => Err(*refusal),
    };
    match found {
        Ok(slot) => FindAnswer { number: 0, place: 0, slot },
        Err(refusal) => FindAnswer::refused(refusal.number, refusal.place),
    }
}

/// The pairs to look up: those of live slots and their neighbours, those of free slots, and odd tags.
fn pairs_of(trial: &mut Trial, pairs: Pairs) -> Vec<(u16, u16)> {
    let random = &mut trial.random;
    let Ok(directory) = &trial.directory else {
        return vec![(random.pick(&ODD_TAGS), random.u16()), (random.u16(), 1)];
    };
    let stored: Vec<(u16, u16)> = directory.slots.iter().map(|slot| (slot.tag, slot.reference)).collect();
    let chosen = match pairs {
        Pairs::All => stored.clone(),
        Pairs::Some => sample(random, &stored),
    };
    let mut asked: Vec<(u16, u16)> = chosen.iter().flat_map(|(tag, reference)| around(*tag, *reference)).collect();
    let reference = if stored.is_empty() { 1 } else { random.pick(&stored).1 };
    if pairs == Pairs::All || stored.len() < 200 {
        asked.extend(ODD_TAGS.map(|tag| (tag, reference)));
    }
    asked.push((random.u16(), random.u16()));
    asked
}

/// A few of the stored pairs; in a long directory, where each lookup takes long, one.
fn sample(random: &mut Random, stored: &[(u16, u16)]) -> Vec<(u16, u16)> {
    let most = if stored.len() < 200 { 3 } else { 1 };
    (0..most.min(stored.len())).map(|_| random.pick(stored)).collect()
}

/// A pair through its base tag, through its extended tag where it has one, and pairs close to it.
fn around(tag: u16, reference: u16) -> [(u16, u16); 6] {
    let base = base_tag(tag);
    [
        (base, reference),
        (base ^ EXTENDED, reference),
        (base ^ 0x8000, reference),
        (base ^ 0xc000, reference),
        (base, reference.wrapping_add(1)),
        (base.wrapping_add(1), reference),
    ]
}
