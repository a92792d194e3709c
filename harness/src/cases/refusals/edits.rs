//! Add, replace and remove.

use super::ask::{Ask, Written};
use super::list::number_of;
use super::{fault, granted, over, with, Case, Fault, TOO_MANY_BYTES};
use crate::cases::edits::DESK;
use crate::cases::pieces::{block, change, image, long_trailer, slot, unstored, Image, FREE_SLOT};
use crate::tally::Call;

/// The greatest length of a file.
const MOST: usize = 2_147_483_647;

/// Where 100/1 has its slot; and this slot: with its three bytes, not stored yet, and both extended and not stored yet.
const SLOT: usize = 22;
const PLAIN_100: [u8; 12] = slot(100, 1, 34, 3);
pub const UNSTORED_100: [u8; 12] = unstored(100);
pub const UNSTORED_16484: [u8; 12] = unstored(16484);

const PRESENT: [Fault; 1] =
    [fault("18", "an element that is there", [18, 0], |ask| (ask.tag, ask.reference) = (100, 1))];

const PRESENT_UNSTORED: [Fault; 2] = [
    fault("18", "an element that is not stored yet", [18, 0], |ask| {
        (ask.tag, ask.reference) = (100, 1);
        ask.image.put(SLOT, &UNSTORED_100);
    }),
    fault("18", "an extended element that is not stored yet", [18, 0], |ask| {
        (ask.tag, ask.reference) = (100, 1);
        ask.image.put(SLOT, &UNSTORED_16484);
    }),
];

const ABSENT: [Fault; 1] = [fault("11", "an element that is not there", [11, 0], |ask| ask.reference = 2)];

/// The first of these tags is the extended form of that of 100/1, which is there.
const BAD_TAG: [Fault; 6] = [
    fault("7 edit", "tag 16484", [7, 0], |ask| ask.tag = 16484),
    fault("7 edit", "tag 0", [7, 0], |ask| ask.tag = 0),
    fault("7 edit", "tag 1", [7, 0], |ask| ask.tag = 1),
    fault("7 edit", "tag 107", [7, 0], |ask| ask.tag = 107),
    fault("7 edit", "tag 16384", [7, 0], |ask| ask.tag = 16384),
    fault("7 edit", "tag 32767", [7, 0], |ask| ask.tag = 32767),
];

const FULL: [Fault; 2] = [
    fault("6 edit blocks", "256 blocks and no free slot", [6, 0], |ask| ask.image.put_front(blocks(256, 0))),
    fault("6 edit slots", "4,081 slots, none of them free", [6, 0], |ask| ask.image.put_front(slots(4081, 0))),
];

const TOO_LONG: [Fault; 1] = [fault("1 edit", "a file of the greatest length", [1, 0], |ask| ask.image.lengthen(MOST))];

/// The new length is one above the greatest, and the buffer is short.
const LONG_DATA: [Fault; 1] =
    [fault("1 edit", "data one byte too long", [1, 0], |ask| ask.data.lengthen(MOST - 37 - 36 + 1))];

const LONGEST_DATA: [Fault; 1] =
    [fault("19", "data for a file of the greatest length", [19, 0], |ask| ask.data.lengthen(MOST - 37 - 36))];

const NO_ROOM: [Fault; 1] = [fault("19", "one byte too short a buffer", [19, 0], |ask| ask.behind = 36)];

const NO_ROOM_TO_REMOVE: [Fault; 1] = [fault("19", "one byte too short a buffer", [19, 0], |ask| ask.behind = 35)];

const PAST_BUFFER: [Fault; 1] = [fault("1 buffer", "a length past the buffer", [1, 0], |ask| {
    ask.n = Some(ask.capacity() as u64 + 1);
})];

const PAST_LIMIT: [Fault; 1] =
    [fault("1 limit", "a length past the limit", [1, 0], |ask| ask.image.lengthen(TOO_MANY_BYTES))];

pub fn cases() -> Vec<Case> {
    [adds(), replacements(), removals()].concat()
}

/// The cases, and those of one call with a length past the buffer or past the limit. A file that ends with a trailer is not made
/// longer.
pub fn with_lengths(cases: Vec<Case>) -> Vec<Case> {
    let ends_with_trailer = |case: &&Case| ["21", "30"].contains(&number_of(case.steps[0].rule));
    let others: Vec<Case> = cases.iter().filter(|case| !ends_with_trailer(case)).cloned().collect();
    [over(&PAST_LIMIT, &others), with(&PAST_BUFFER, cases)].concat()
}

/// The tag, the pair, the directory, the limit, the buffer.
fn adds() -> Vec<Case> {
    let add = |of, slot| {
        let (file, new) = (one_free_with(slot), one_added(slot));
        granted(of, edit(Call::Add, (40000, 5), file), &[74], Written::bytes(&new))
    };
    let added = [add("an element", PLAIN_100)];
    let (full, long) = (over(&FULL, &added), over(&TOO_LONG, &added));
    let present = [over(&PRESENT, &added), over(&PRESENT_UNSTORED, &added)].concat();
    let room = [over(&NO_ROOM, &added), over(&LONGEST_DATA, &added)].concat();
    let later = [&full[..], &long, &room].concat();
    [
        vec![add("an element beside one that is not stored yet", UNSTORED_100)],
        over(&PRESENT_UNSTORED, &later[full.len()..]),
        over(&BAD_TAG, &added),
        over(&BAD_TAG[..1], &present),
        over(&BAD_TAG[..1], &later),
        over(&PRESENT, &later),
        over(&FULL, &long),
        over(&FULL, &room[..1]),
        over(&TOO_LONG, &room[..1]),
        over(&LONG_DATA, &room[1..]),
        present,
        later,
        added.into(),
        last_blocks(),
        behind_what_ends_like_a_trailer(),
    ]
    .concat()
}

/// The tag, the pair, the limit, the buffer.
fn replacements() -> Vec<Case> {
    let replace = |of, old| {
        let ask = edit(Call::Replace, (100, 1), one_free_with(old));
        granted(of, ask, &[74], Written::bytes(&replaced(old)))
    };
    let room = over(&LONGEST_DATA, &[replace("an element", PLAIN_100)]);
    let data = [over(&LONG_DATA, &room), over(&BAD_TAG[..1], &room), over(&ABSENT, &room), room];
    [changes(replace, &NO_ROOM), data.concat()].concat()
}

fn removals() -> Vec<Case> {
    let remove = |of, old| {
        let ask = Ask { data: Image::default(), ..edit(Call::Remove, (100, 1), one_free_with(old)) };
        granted(of, ask, &[73], Written::bytes(&removed(old)))
    };
    changes(remove, &NO_ROOM_TO_REMOVE)
}

/// What a replacement and a removal have in common, given the slot of the element before it.
fn changes(change: impl Fn(&'static str, [u8; 12]) -> Case, no_room: &[Fault]) -> Vec<Case> {
    let changed = [
        change("an element", PLAIN_100),
        change("an element that is not stored yet", UNSTORED_100),
        change("an extended element that is not stored yet", UNSTORED_16484),
    ];
    let (absent, long, room) = (over(&ABSENT, &changed), over(&TOO_LONG, &changed), over(no_room, &changed));
    let later = [&absent[..], &long, &room].concat();
    [
        over(&BAD_TAG, &changed),
        over(&BAD_TAG[..1], &later),
        over(&ABSENT, &long),
        over(&ABSENT, &room),
        over(&TOO_LONG, &room),
        later,
        changed.into(),
    ]
    .concat()
}

/// Adds of a 256th block, and of the last slots up to 4,096.
fn last_blocks() -> Vec<Case> {
    let new_block = |offset| [&block(16, 0)[..], &slot(40000, 5, offset, 1), &FREE_SLOT.repeat(15)].concat();
    let last_block = trailer(1542, 4, [0; 12], 1546, 0);
    let with_block = [&blocks(255, 1546)[..], &new_block(1744), &[0x2a], &last_block].concat();
    let last_slots = trailer(6, 4, [0; 12], 48970, 0);
    let with_slots = [&slots(4080, 48970)[..], &new_block(49168), &[0x2a], &last_slots].concat();
    let add = |file| edit(Call::Add, (40000, 5), file);
    vec![
        granted("a 256th block", add(blocks(255, 0)), &[1781], Written::bytes(&with_block)),
        granted("the last 16 slots", add(slots(4080, 0)), &[49205], Written::bytes(&with_slots)),
    ]
}

/// Adds to files that end like a trailer, just long enough for one or too short: what the new one names as the previous one.
fn behind_what_ends_like_a_trailer() -> Vec<Case> {
    let add = |of, end: &[u8], previous| {
        let file = two_slots([FREE_SLOT, PLAIN_100], &[end]);
        let n = file.len() as u32;
        let appended = [end, &[0x2a], &trailer(10, 12, FREE_SLOT, n, previous)].concat();
        let new = two_slots([slot(40000, 5, n, 1), PLAIN_100], &[&appended]);
        granted(of, edit(Call::Add, (40000, 5), file), &[u64::from(n) + 37], Written::bytes(&new))
    };
    vec![
        add("an element behind 45 bytes like a long trailer", b"----BAC2", 0),
        add("an element behind 46 bytes like a long trailer", b"-----BAC2", 10),
        add("an element behind 42 bytes like a long trailer", b"-BAC2", 0),
        add("an element behind 41 bytes like an old trailer", b"BACK", 0),
        add("an element behind 42 bytes like an old trailer", b"-BACK", 10),
        add("an element behind 46 bytes like an old trailer", b"-----BACK", 14),
    ]
}

/// An edit with one byte of data, and room for it.
fn edit(call: Call, (tag, reference): (u16, u16), file: Vec<u8>) -> Ask {
    let data = Image::from(vec![0x2a]);
    Ask { desk: DESK, tag, reference, data, behind: 300, ..Ask::on(call, Image::from(file)) }
}

/// The trailer that it leaves.
fn trailer(place: u32, altered: u32, old: [u8; 12], before: u32, previous: u32) -> Vec<u8> {
    long_trailer(change(place, altered, old, before, previous), DESK)
}

/// A free slot and this slot of 100/1: 37 bytes.
pub fn one_free_with(slot: [u8; 12]) -> Vec<u8> {
    two_slots([FREE_SLOT, slot], &[])
}

/// The same with 40000/5 in the free slot.
fn one_added(other: [u8; 12]) -> Vec<u8> {
    two_slots([slot(40000, 5, 37, 1), other], &[&[0x2a], &trailer(10, 12, FREE_SLOT, 37, 0)])
}

/// The same with 100/1 replaced.
pub fn replaced(old: [u8; 12]) -> Vec<u8> {
    two_slots([FREE_SLOT, slot(100, 1, 37, 1)], &[&[0x2a], &trailer(22, 12, old, 37, 0)])
}

/// The same with 100/1 removed.
pub fn removed(old: [u8; 12]) -> Vec<u8> {
    two_slots([FREE_SLOT, FREE_SLOT], &[&trailer(22, 12, old, 37, 0)])
}

/// A block of two slots, three bytes, and what was appended.
fn two_slots(slots: [[u8; 12]; 2], appended: &[&[u8]]) -> Vec<u8> {
    image(&[&block(2, 0), &slots.concat(), b"hub", &appended.concat()]).bytes()
}

/// Blocks one behind the other, the first with the empty 100/1 as its only slot, the others without slots.
fn blocks(count: u32, last_next: u32) -> Vec<u8> {
    let next = |index| if index == count - 1 { last_next } else { 22 + 6 * index };
    let rest: Vec<u8> = (1..count).flat_map(|index| block(0, next(index))).collect();
    image(&[&block(1, next(0)), &slot(100, 1, 0, 0), &rest]).bytes()
}

/// A block of the empty elements 100/1, 100/2 and so on.
fn slots(count: u16, next: u32) -> Vec<u8> {
    let slots: Vec<u8> = (1..=count).flat_map(|reference| slot(100, reference, 0, 0)).collect();
    image(&[&block(count, next), &slots]).bytes()
}
