//! Reading elements: view, size, copy, and the choice between two files.

use super::edits::first_difference;
use super::{differ, Outcome, Pairs, Trial};
use crate::lent::{surround, Lent};
use crate::random::Random;
use crate::reader::{self, base_tag, Directory, EXTENDED};
use crate::storage::{self, is_extended, Opening, Reading, Refused, Way};
use crate::tally::{Call, Tally};
use hdf4_sys::{self as library, Answer, ChooseAnswer, CopyAnswer, SizeAnswer, ViewAnswer};
use std::ops::Range;

const PATTERN: u8 = 0xc3;
const PAST_ROOM: usize = 16;

/// Longer elements are not copied.
const MOST_COPIED: u64 = 1 << 20;

/// In an image with more extended elements, only some of them are read.
const FEW: usize = 4;

pub fn compare(trial: &mut Trial, pairs: Pairs) -> Outcome {
    for (tag, reference) in pairs_of(trial, pairs) {
        compare_view(trial, tag, reference)?;
        compare_size(trial, tag, reference)?;
        for room in rooms(trial, tag, reference) {
            compare_copy(trial, tag, reference, room)?;
        }
    }
    Ok(())
}

/// The pairs to read: those of extended elements and of some others, or all, and one that is hardly there.
fn pairs_of(trial: &mut Trial, pairs: Pairs) -> Vec<(u16, u16)> {
    let random = &mut trial.random;
    let mut asked = match &trial.directory {
        Ok(directory) if pairs == Pairs::All => directory.live().map(|slot| (slot.tag, slot.reference)).collect(),
        Ok(directory) => sample(random, directory),
        Err(_) => Vec::new(),
    };
    if asked.is_empty() || random.once_in(8) {
        let any = random.u16();
        asked.push((random.pick(&[100, 107, EXTENDED + 20, any]), random.u16()));
    }
    asked
}

/// Up to four extended elements and one other, by the base tag or the extended one.
fn sample(random: &mut Random, directory: &Directory) -> Vec<(u16, u16)> {
    let (extended, plain): (Vec<_>, Vec<_>) = directory.live().partition(|slot| is_extended(slot));
    let mut chosen: Vec<_> = plain.get(random.below(plain.len() + 1)).into_iter().copied().collect();
    match extended.len() {
        0..=FEW => chosen.extend(extended),
        many => chosen.push(extended[random.below(many)]),
    }
    let either = |slot: &reader::Slot| (if random.once_in(2) { slot.tag } else { base_tag(slot.tag) }, slot.reference);
    chosen.into_iter().map(either).collect()
}

/// Rooms for a copy: exactly enough, one byte too little, more than enough, and none; any, where no room would do.
fn rooms(trial: &mut Trial, tag: u16, reference: u16) -> Vec<usize> {
    let needed = match storage::size(trial.lent.image(), &trial.directory, tag, reference) {
        Ok((length, _)) if length <= MOST_COPIED => length as usize,
        Ok(_) => return vec![0, trial.random.below(1000)],
        Err(_) => return vec![0, trial.random.below(40)],
    };
    let mut rooms = vec![needed, needed + trial.random.between(1, 12), 0];
    if needed > 1 {
        rooms.push(needed - 1);
    }
    rooms
}

fn compare_view(trial: &mut Trial, tag: u16, reference: u16) -> Outcome {
    let library = library::view(trial.lent.image(), tag, reference);
    let reading = storage::view(&trial.directory, tag, reference);
    trial.tally.count_way(Call::View, None, way_of(&reading));
    trial.same(Call::View, &[tag.into(), reference.into()], library, answer(reading, viewed))
}

pub fn viewed(part: Range<u64>) -> ViewAnswer {
    ViewAnswer { offset: part.start, length: part.end - part.start, ..ViewAnswer::default() }
}

fn compare_size(trial: &mut Trial, tag: u16, reference: u16) -> Outcome {
    let library = library::size(trial.lent.image(), tag, reference);
    let reading = storage::size(trial.lent.image(), &trial.directory, tag, reference);
    let layout = storage::layout(&trial.directory, tag, reference);
    trial.tally.count_way(Call::Size, layout, way_of(&reading));
    trial.same(Call::Size, &[tag.into(), reference.into()], library, answer(reading, sized))
}

pub fn sized(length: u64) -> SizeAnswer {
    SizeAnswer { length, ..SizeAnswer::default() }
}

fn compare_copy(trial: &mut Trial, tag: u16, reference: u16, room: usize) -> Outcome {
    let arguments = [tag.into(), reference.into(), room];
    let mut memory = vec![PATTERN; room + PAST_ROOM];
    let library = library::copy(trial.lent.image(), tag, reference, &mut memory[..room]);

    let reading = storage::copy(trial.lent.image(), &trial.directory, tag, reference, room);
    let layout = storage::layout(&trial.directory, tag, reference);
    trial.tally.count_way(Call::Copy, layout, way_of(&reading));
    let mut expected = vec![PATTERN; room + PAST_ROOM];
    if let Ok((bytes, _)) = &reading {
        expected[..bytes.len()].copy_from_slice(bytes);
    }
    let answer = copied(&reading);
    trial.tally.count_index(answer.number, answer.index);
    trial.same(Call::Copy, &arguments, library, answer)?;
    match first_difference(&memory, &expected) {
        Some(difference) => differ(Call::Copy, &arguments, difference, "other bytes in the room".into()),
        None => Ok(()),
    }
}

/// What the library must answer to a copy. A refusal has zeros, but for the index of a table or a block.
pub fn copied(reading: &Reading<Vec<u8>>) -> CopyAnswer {
    match reading {
        Ok((bytes, _)) => CopyAnswer { length: bytes.len() as u64, ..CopyAnswer::default() },
        Err(Refused { refusal, index, .. }) => {
            CopyAnswer { index: *index, ..CopyAnswer::refused(refusal.number, refusal.place) }
        }
    }
}

/// Two images lent at once.
pub struct Two<'a> {
    current: Lent<'a>,
    fallback: Lent<'a>,
    openings: [Opening; 2],
}

/// Compares the choice between two images: pairs of both, and one that is hardly in either.
pub fn compare_two(current: &[u8], fallback: &[u8], random: &mut Random, tally: &mut Tally) -> Outcome {
    let (first, first_range) = surround(current, random.below(16));
    let (second, second_range) = surround(fallback, random.below(16));
    let two = Two {
        current: Lent::watch_all(&first, first_range),
        fallback: Lent::watch_all(&second, second_range),
        openings: [reader::open(current), reader::open(fallback)],
    };
    compare_lent_two(&two, random, tally)
}

/// The same with images too large to copy.
pub fn compare_huge_two(current: &[u8], fallback: &[u8], random: &mut Random, tally: &mut Tally) -> Outcome {
    let two = Two {
        current: Lent::watch_ends(current, 0..current.len()),
        fallback: Lent::watch_ends(fallback, 0..fallback.len()),
        openings: [reader::open(current), reader::open(fallback)],
    };
    compare_lent_two(&two, random, tally)
}

fn compare_lent_two(two: &Two, random: &mut Random, tally: &mut Tally) -> Outcome {
    let mut asked = vec![(random.u16(), random.u16())];
    for directory in two.openings.iter().flatten() {
        asked.extend(sample(random, directory));
    }
    for (tag, reference) in asked {
        compare_choose(two, tag, reference, tally)?;
    }
    Ok(())
}

fn compare_choose(two: &Two, tag: u16, reference: u16, tally: &mut Tally) -> Outcome {
    let arguments = [tag.into(), reference.into()];
    let [current, fallback] = &two.openings;
    let library = library::choose(two.current.image(), two.fallback.image(), tag, reference);
    let reading = storage::choose(current, fallback, tag, reference);
    tally.count_way(Call::Choose, None, way_of(&reading));
    let expected = answer(reading, chosen);
    if library != expected {
        return differ(Call::Choose, &arguments, format!("{library:?}"), format!("{expected:?}"));
    }
    if !two.current.is_unchanged() || !two.fallback.is_unchanged() {
        return differ(Call::Choose, &arguments, "altered a lent image".into(), "left both as they were".into());
    }
    tally.count(Call::Choose, expected.number);
    Ok(())
}

pub fn chosen((which, part): (u64, Range<u64>)) -> ChooseAnswer {
    ChooseAnswer { which, offset: part.start, length: part.end - part.start, ..ChooseAnswer::default() }
}

/// What the library must answer to a view, a size or a choice.
pub fn answer<T, A: Answer>(reading: Reading<T>, granted: impl FnOnce(T) -> A) -> A {
    match reading {
        Ok((value, _)) => granted(value),
        Err(refused) => A::refused(refused.refusal.number, refused.refusal.place),
    }
}

fn way_of<T>(reading: &Reading<T>) -> Way {
    match reading {
        Ok((_, way)) => *way,
        Err(refused) => refused.way,
    }
}
