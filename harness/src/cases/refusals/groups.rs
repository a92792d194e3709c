//! Vgroups, and the listing of groups within groups.

use super::ask::{Ask, Rooms, Written};
use super::{element_first, fault, granted, over, two_at_once, Case, Fault};
use crate::cases::pieces::{file, numbers16, text, Image};
use crate::tally::Call;
use std::ops::RangeInclusive;

const GROUP: u16 = 1965;
const EXTENDED_GROUP: u16 = 18349;
const OTHER_TAG: u16 = 21;

/// The slots of the groups 1, 2, 3, 16 and 17.
const NAMED: usize = 22;
const MEMBER: usize = 34;
const LATER: usize = 46;
const SIXTEENTH: usize = 202;
const LAST: usize = 214;

/// A member that is no group.
const LEAF: [u16; 2] = [1500, 7];

const ABSENT: [Fault; 1] = [fault("11", "a reference that is not there", [11, 0], |ask| ask.reference = 9)];

const EXTENDED: [Fault; 1] =
    [fault("12", "an extended group", [12, 22], |ask| ask.image.put_tag(NAMED, EXTENDED_GROUP))];

/// In a group of two members the length of the name stands at 10, the version at 26. The first of these records has no members
/// for which there could be too little room.
const BAD_GROUP: [Fault; 5] = [
    fault("15 cut", "a record of no bytes", [15, 22], |ask| ask.image.put_length(NAMED, 0)),
    fault("15 cut", "a record of 29 bytes", [15, 22], |ask| ask.image.put_length(NAMED, 29)),
    fault("15 cut", "a count of 65,535", [15, 22], |ask| ask.image.put16_in(NAMED, 0, 65535)),
    fault("15 cut", "a name of 65,535 bytes", [15, 22], |ask| ask.image.put16_in(NAMED, 10, 65535)),
    fault("15 version", "version 4", [15, 22], |ask| ask.image.put16_in(NAMED, 26, 4)),
];

const SMALL: [Fault; 2] = [
    fault("14", "one entry too few for two members", [14, 0], |ask| ask.rooms.shorts = 3),
    fault("14", "no room for two members", [14, 0], |ask| ask.rooms.shorts = 0),
];

const NO_NAMED: [Fault; 1] = [fault("11 named", "no named group", [11, 0], |ask| ask.reference = 9)];

const BAD_NAMED: [Fault; 4] = [
    fault("29 named", "a named group that is not stored yet", [29, 22], |ask| ask.image.unstore(NAMED)),
    fault("12 named", "an extended named group", [12, 22], |ask| ask.image.put_tag(NAMED, EXTENDED_GROUP)),
    fault("15 named", "a named group of 29 bytes", [15, 22], |ask| ask.image.put_length(NAMED, 29)),
    fault("15 named", "a named group of version 4", [15, 22], |ask| ask.image.put16_in(NAMED, 26, 4)),
];

const NO_PLACE: [Fault; 2] = [
    fault("14 place", "half a place for the second pair", [14, 0], |ask| ask.rooms.shorts = 3),
    fault("14 place", "no place for the second pair", [14, 0], |ask| ask.rooms.shorts = 2),
];

const BAD_MEMBER: [Fault; 4] = [
    fault("11 member", "a group that is not there", [11, 0], |ask| ask.image.put_tag(MEMBER, OTHER_TAG)),
    fault("29 member", "a group that is not stored yet", [29, 34], |ask| ask.image.unstore(MEMBER)),
    fault("12 member", "an extended group inside", [12, 34], |ask| ask.image.put_tag(MEMBER, EXTENDED_GROUP)),
    fault("15 member", "a group of 13 bytes inside", [15, 34], |ask| ask.image.put_length(MEMBER, 13)),
];

const NO_LATER_PLACE: [Fault; 1] =
    [fault("14 later", "no place for a later pair", [14, 0], |ask| ask.rooms.shorts = 2)];

const BAD_LATER: [Fault; 4] = [
    fault("11 later", "a later group that is not there", [11, 0], |ask| ask.image.put_tag(LATER, OTHER_TAG)),
    fault("29 later", "a later group that is not stored yet", [29, 46], |ask| ask.image.unstore(LATER)),
    fault("12 later", "a later group that is extended", [12, 46], |ask| ask.image.put_tag(LATER, EXTENDED_GROUP)),
    fault("15 later", "a later group of 13 bytes", [15, 46], |ask| ask.image.put_length(LATER, 13)),
];

/// The same of a group 1 without names.
const BAD_FIRST: [Fault; 3] = [
    fault("29 named", "a first group that is not stored yet", [29, 22], |ask| ask.image.unstore(NAMED)),
    fault("12 named", "an extended first group", [12, 22], |ask| ask.image.put_tag(NAMED, EXTENDED_GROUP)),
    fault("15 named", "a first group of 17 bytes", [15, 22], |ask| ask.image.put_length(NAMED, 17)),
];

/// Of 17 groups, each within the one before, there are too many from the first on, but not from the second on.
const DEEP: [Fault; 1] = [fault("22", "a 17th group", [22, 202], |ask| ask.reference = 1)];

const NO_16TH_PLACE: [Fault; 1] =
    [fault("14 place", "no place for the 16th pair", [14, 0], |ask| ask.rooms.shorts = 30)];

const BAD_LAST: [Fault; 4] = [
    fault("11 member", "no last group", [11, 0], |ask| ask.image.put_tag(LAST, OTHER_TAG)),
    fault("29 member", "a last group that is not stored yet", [29, 214], |ask| ask.image.unstore(LAST)),
    fault("12 member", "an extended last group", [12, 214], |ask| ask.image.put_tag(LAST, EXTENDED_GROUP)),
    fault("15 member", "a last group of 13 bytes", [15, 214], |ask| ask.image.put_length(LAST, 13)),
];

/// The first member of the 16th group becomes a group.
const DEEP_MEMBER: [Fault; 1] = [fault("22", "a 17th group", [22, 202], |ask| ask.image.put16_in(SIXTEENTH, 2, GROUP))];

const NO_17TH_PLACE: [Fault; 1] =
    [fault("14 later", "no place for the 17th pair", [14, 0], |ask| ask.rooms.shorts = 32)];

/// Group 1 has one leaf more than the group that is named at first.
const MANY_PAIRS: [Fault; 1] = [fault("14 4,097th", "a 4,097th pair", [14, 0], |ask| ask.reference = 1)];

pub fn cases() -> Vec<Case> {
    [groups(), listings(), later_pairs(), deep_listings(), deep_before_a_pair(), crowds(), deep_crowds()].concat()
}

/// The record, then the room.
fn groups() -> Vec<Case> {
    let ask = |image| ask(Call::ReadGroup, 1, image, 5);
    let written = || Written::shorts(&[1962, 5, 1965, 2]);
    let mut longer = two_groups();
    longer.put_length(NAMED, 31);
    let read = [granted("two members", ask(two_groups()), &[2, 70, 4, 76, 4, 9, 8, 3, 7], written())];
    let behind = granted("a byte behind the last field", ask(longer), &[2, 70, 4, 76, 4, 9, 8, 3, 7], written());
    let small = over(&SMALL, &read);
    let later = [&over(&BAD_GROUP, &read)[..], &small].concat();
    [element_first(&ABSENT, &EXTENDED, &read, &later), over(&BAD_GROUP[1..], &small), later, read.into(), vec![behind]]
        .concat()
}

/// The named group, then at the second pair its place, then the group that it is.
fn listings() -> Vec<Case> {
    let ask = |reference, room| ask(Call::ListGroup, reference, two_groups(), room);
    let listed = [granted("a group inside", ask(1, 5), &[2], Written::shorts(&[1962, 5, 1965, 2]))];
    let empty = granted("a group of no members, and no room", ask(2, 0), &[0], Written::default());
    let (place, member) = (over(&NO_PLACE, &listed), over(&BAD_MEMBER, &listed));
    let (storage, layout) = BAD_NAMED.split_at(2);
    [
        over(&NO_NAMED, &listed),
        over(&BAD_NAMED, &listed),
        two_at_once(storage, &listed),
        over(storage, &over(layout, &listed)),
        over(&BAD_NAMED, &place),
        over(&BAD_NAMED, &member),
        over(&NO_PLACE, &member),
        two_at_once(&BAD_MEMBER[1..], &listed),
        place,
        member,
        listed.into(),
        vec![empty, unread()],
    ]
    .concat()
}

/// A member that is no group is not read.
fn unread() -> Case {
    let members = [[GROUP, 2], [100, 1]];
    let mut image = file(&[(GROUP, 1, group(&members)), (GROUP, 2, group(&[])), (100, 1, Vec::new())]);
    image.unstore(LATER);
    let ask = ask(Call::ListGroup, 1, image, 4);
    granted("an element that is not stored yet", ask, &[2], Written::shorts(&members.concat()))
}

/// The first pair, then the second.
fn later_pairs() -> Vec<Case> {
    let named = named_group(&[[GROUP, 2], [GROUP, 3]]);
    let image = file(&[(GROUP, 1, named), (GROUP, 2, group(&[])), (GROUP, 3, group(&[]))]);
    let listed = granted("two groups", ask(Call::ListGroup, 1, image, 4), &[2], Written::shorts(&[1965, 2, 1965, 3]));
    let listed = [listed];
    let (place, later) = (over(&NO_LATER_PLACE, &listed), over(&BAD_LATER, &listed));
    [over(&BAD_MEMBER, &place), over(&BAD_MEMBER, &later), place, later, listed.into()].concat()
}

/// Of the 16th pair from group 1 on its place, then that it is a 17th group, then that group.
fn deep_listings() -> Vec<Case> {
    let ask = ask(Call::ListGroup, 2, nested(&[], &[[GROUP, 17]]), 40);
    let listed = [granted("16 groups", ask, &[15], Written::shorts(&groups_in(3..=17).concat()))];
    let (deep, last) = (over(&DEEP, &listed), over(&BAD_LAST, &listed));
    [over(&BAD_FIRST, &deep), over(&NO_16TH_PLACE, &deep), over(&DEEP, &last), deep, last, listed.into()].concat()
}

/// The 17th group at one pair, then the place of the next.
fn deep_before_a_pair() -> Vec<Case> {
    let last = [[1500, 17], [100, 1]];
    let ask = ask(Call::ListGroup, 1, nested(&[], &last), 40);
    let written = [&groups_in(2..=16)[..], &last].concat();
    let listed = [granted("16 groups and two pairs", ask, &[17], Written::shorts(&written.concat()))];
    let place = over(&NO_17TH_PLACE, &listed);
    [over(&DEEP_MEMBER, &place), place, listed.into()].concat()
}

/// 4,096 pairs from group 3 on, the last of them the group 2, and 4,097 from group 1 on.
fn crowds() -> Vec<Case> {
    let crowd = |leaves| [vec![LEAF; leaves], vec![[GROUP, 2]]].concat();
    let image = file(&[(GROUP, 1, group(&crowd(4096))), (GROUP, 2, group(&[])), (GROUP, 3, group(&crowd(4095)))]);
    let ask = ask(Call::ListGroup, 3, image, 8200);
    let listed = [granted("4,096 pairs", ask, &[4096], Written::shorts(&crowd(4095).concat()))];
    let (many, member) = (over(&MANY_PAIRS, &listed), over(&BAD_MEMBER, &listed));
    [over(&BAD_FIRST, &many), over(&MANY_PAIRS, &member), many, member, listed.into()].concat()
}

/// The 17th group is the 4,096th pair from group 18 on, and the 4,097th from group 1 on.
fn deep_crowds() -> Vec<Case> {
    let leaves = [LEAF; 4081];
    let named = [&leaves[1..], &[[GROUP, 2]]].concat();
    let mut elements = nested_elements(&leaves, &[[1500, 17]]);
    elements.push((GROUP, 18, group(&named)));
    let ask = ask(Call::ListGroup, 18, file(&elements), 8200);
    let written = [&named[..], &groups_in(3..=16), &[[1500, 17]]].concat();
    let listed = [granted("16 groups and 4,096 pairs", ask, &[4096], Written::shorts(&written.concat()))];
    let deep = over(&DEEP_MEMBER, &listed);
    [over(&MANY_PAIRS, &deep), deep, listed.into()].concat()
}

fn ask(call: Call, reference: u16, image: Image, room: usize) -> Ask {
    Ask { reference, rooms: Rooms { shorts: room, ..Rooms::default() }, ..Ask::on(call, image) }
}

/// Group 1 at 58 with two members, the second of them the group 2.
fn two_groups() -> Image {
    let named = named_group(&[[1962, 5], [GROUP, 2]]);
    file(&[(GROUP, 1, named), (GROUP, 2, group(&[])), (100, 1, b"hub".to_vec())])
}

/// 17 groups. Each of the first 15 ends with the next one; these are the first's other members, and those of the 16th.
fn nested(first: &[[u16; 2]], sixteenth: &[[u16; 2]]) -> Image {
    file(&nested_elements(first, sixteenth))
}

fn nested_elements(first: &[[u16; 2]], sixteenth: &[[u16; 2]]) -> Vec<(u16, u16, Vec<u8>)> {
    let members = |index: u16| match index {
        1 => [first, &[[GROUP, 2]]].concat(),
        16 => sixteenth.to_vec(),
        17 => Vec::new(),
        _ => vec![[GROUP, index + 1]],
    };
    (1..=17).map(|index| (GROUP, index, group(&members(index)))).collect()
}

/// The pairs of these groups.
fn groups_in(references: RangeInclusive<u16>) -> Vec<[u16; 2]> {
    references.map(|reference| [GROUP, reference]).collect()
}

/// A group without names: 14 bytes, and 4 for each member.
fn group(members: &[[u16; 2]]) -> Vec<u8> {
    [start(members), text(b""), text(b""), numbers16(&[0, 0, 3, 0])].concat()
}

/// A group with name and class: 22 bytes, and 4 for each member.
fn named_group(members: &[[u16; 2]]) -> Vec<u8> {
    [start(members), text(b"yard"), text(b"rail"), numbers16(&[9, 8, 3, 7])].concat()
}

/// The count, all tags, all references.
fn start(members: &[[u16; 2]]) -> Vec<u8> {
    let column = |index: usize| members.iter().map(|pair| pair[index]).collect::<Vec<u16>>();
    numbers16(&[vec![members.len() as u16], column(0), column(1)].concat())
}
