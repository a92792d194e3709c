//! Files of groups within groups: trees, long chains, circles, and groups that name others so often that their pairs are close
//! to as many as a listing holds.

use crate::arguments::tail;
use crate::images::parts::Part;
use crate::packing::{bytes_of, layout, Record};
use crate::random::Random;
use crate::reader::{EXTENDED, FREE};
use crate::vset::{Group, Tail, GROUP, HEAD, MOST_NESTED, MOST_PAIRS};

/// The members of each group. The group with an index has the reference one above it.
type Plan = Vec<Vec<[u16; 2]>>;

/// Tags of members that are no groups, one of them close to being one.
const OTHERS: [u16; 6] = [HEAD, 720, 1500, GROUP + EXTENDED, GROUP + 0x8000, 0];

/// The elements of a file: the groups of a plan, with something wrong at times.
pub fn parts(random: &mut Random) -> Vec<Part> {
    let plan = match random.below(40) {
        0 => crowd(random),
        1 => doubled(random),
        2 => crowd_before_a_group(random),
        3..=12 => chain(random),
        13..=17 => circle(random),
        _ => tree(random),
    };
    let mut parts: Vec<Part> = (0..).zip(plan).map(|(index, members)| group(random, index, members)).collect();
    for _ in 0..random.pick(&[0, 0, 1, 1, 2]) {
        spoil(random, &mut parts);
    }
    parts
}

/// Up to eight groups, each with members of any kind and groups behind it.
fn tree(random: &mut Random) -> Plan {
    let count = random.between(1, 8);
    (0..count).map(|index| members(random, index, count)).collect()
}

fn members(random: &mut Random, index: usize, count: usize) -> Vec<[u16; 2]> {
    let behind = count - 1 - index;
    let one = |random: &mut Random| match behind {
        0 => leaf(random),
        _ if random.once_in(2) => leaf(random),
        _ => inner(index + 1 + random.below(behind)),
    };
    (0..random.pick(&[0, 1, 2, 2, 3, 4])).map(|_| one(random)).collect()
}

/// Groups each within the one before, close to as many as can be nested.
fn chain(random: &mut Random) -> Plan {
    let count = random.pick(&[2, MOST_NESTED - 1, MOST_NESTED, MOST_NESTED, MOST_NESTED + 1, MOST_NESTED + 2]);
    let mut plan: Plan = (1..count).map(|next| vec![inner(next)]).collect();
    plan.push(Vec::new());
    for members in &mut plan {
        for _ in 0..random.below(3) {
            let place = random.below(members.len() + 1);
            members.insert(place, leaf(random));
        }
    }
    plan
}

/// A chain whose last group names itself or one before it.
fn circle(random: &mut Random) -> Plan {
    let count = random.between(1, 4);
    let mut plan: Plan = (1..=count).map(|next| vec![inner(next % count)]).collect();
    let last = plan.len() - 1;
    plan[last] = vec![leaf(random), inner(random.below(count)), leaf(random)];
    plan
}

/// A group that names another one so often that its pairs are close to as many as a listing holds.
fn crowd(random: &mut Random) -> Plan {
    let (times, count) =
        random.pick(&[(64, 63), (64, 63), (64, 64), (63, 64), (16, 255), (1, 4095), (1, 4096), (0, 0)]);
    let fill = random.pick(&[0, 0, 1]) + if times == 0 { MOST_PAIRS - random.below(2) } else { 0 };
    let mut outer = vec![inner(1); times];
    for _ in 0..fill {
        outer.insert(random.below(outer.len() + 1), leaf(random));
    }
    vec![outer, (0..count).map(|_| leaf(random)).collect()]
}

/// Groups that each name the next one twice, so that their pairs are many although the file is small.
fn doubled(random: &mut Random) -> Plan {
    let count = random.between(10, 15);
    let mut plan: Plan = (1..count).map(|next| vec![inner(next); 2]).collect();
    plan.push((0..random.below(3)).map(|_| leaf(random)).collect());
    plan
}

/// A group, mostly one that is not there, as the last member that a listing holds, or the first that it does not.
fn crowd_before_a_group(random: &mut Random) -> Plan {
    let count = MOST_PAIRS - random.pick(&[0, 0, 1, 1, 2]);
    let mut members: Vec<[u16; 2]> = (0..count).map(|_| leaf(random)).collect();
    members.push(inner(random.pick(&[0, 1, 7, 7])));
    vec![members, Vec::new()]
}

fn leaf(random: &mut Random) -> [u16; 2] {
    [random.pick(&OTHERS), random.below(4) as u16]
}

/// The group with an index, as a member.
fn inner(index: usize) -> [u16; 2] {
    [GROUP, index as u16 + 1]
}

fn group(random: &mut Random, index: u16, members: Vec<[u16; 2]>) -> Part {
    let tail = Tail { name: Vec::new(), ..tail(random) };
    let group = Group { members: members.concat(), tail };
    let mut bytes = bytes_of(&layout(&Record::Group(group)));
    if random.once_in(3) {
        bytes.push(0);
    }
    Part::new(GROUP, index + 1, bytes)
}

/// A group that is missing, not stored yet, extended, cut, or of another version.
fn spoil(random: &mut Random, parts: &mut [Part]) {
    let part = &mut parts[random.below(parts.len())];
    match random.below(6) {
        0 => part.tag = FREE,
        1 => part.set_aside(),
        2 => part.extend(),
        3 => part.bytes.truncate(random.below(part.bytes.len() + 1)),
        4 => part.bytes.truncate(part.bytes.len().saturating_sub(9)),
        _ => part.put(0, &[0xff, 0xff]),
    }
}
