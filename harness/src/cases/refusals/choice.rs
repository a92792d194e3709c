//! The choice between two files: today's, then the standing one, the fallback.

use super::ask::{Ask, Written};
use super::{fault, granted, over, with, Case, Fault, TOO_MANY_BYTES};
use crate::cases::pieces::{file, Image, FIRST_SLOT, NEXT};
use crate::tally::Call;

/// The slots of 302/2, extended in today's file and plain in the fallback.
const IN_CURRENT: usize = 34;
const IN_FALLBACK: usize = 46;

/// The slots of 100/1 in today's file, and of 101/1 and the extended 104/3 in the fallback.
const PLAIN: usize = 22;
const PLAIN_BEHIND: usize = 58;
const EXTENDED_ALONE: usize = 70;

const EXTENDED_302: u16 = 16686;

const ABSENT: [Fault; 1] =
    [fault("11", "a pair that neither file has", [11, 0], |ask| (ask.tag, ask.reference) = (105, 1))];

const EXTENDED: [Fault; 2] = [
    fault("12 current", "an element that is extended only today", [12, 34], |ask| {
        (ask.tag, ask.reference) = (302, 2);
    }),
    fault("12 fallback", "an extended element of the fallback", [12, 70], |ask| (ask.tag, ask.reference) = (104, 3)),
];

/// What is not stored yet, although the fallback has it, and what only the fallback has.
const UNSTORED: [Fault; 2] = [
    fault("29 current", "an element that is not stored only today", [29, 22], |ask| ask.image.unstore(PLAIN)),
    fault("29 fallback", "an element of the fallback that is not stored", [29, 58], |ask| {
        (ask.tag, ask.reference) = (101, 1);
        ask.fallback.unstore(PLAIN_BEHIND);
    }),
];

/// The two extended elements, not stored yet.
const UNSTORED_EXTENDED: [Fault; 2] = [
    fault("29 current", "one that is not stored today", [29, 34], |ask| ask.image.unstore(IN_CURRENT)),
    fault("29 fallback", "one that is not stored in the fallback", [29, 70], |ask| {
        ask.fallback.unstore(EXTENDED_ALONE);
    }),
];

/// What is wrong with 302/2 in the fallback where today's file does not have it; and in today's file where it has.
const BEHIND: [Fault; 2] = [
    fault("29 fallback", "an element that is not stored in the fallback", [29, 46], |ask| {
        only_in_fallback(ask);
        ask.fallback.unstore(IN_FALLBACK);
    }),
    fault("12 fallback", "an element that is extended in the fallback", [12, 46], |ask| {
        only_in_fallback(ask);
        ask.fallback.put_tag(IN_FALLBACK, EXTENDED_302);
    }),
];

const BEFORE: [Fault; 2] = [
    fault("29 current", "an element that is not stored today", [29, 34], |ask| {
        ask.image.put_reference(IN_CURRENT, 2);
        ask.image.unstore(IN_CURRENT);
    }),
    fault("12 current", "an element that is extended today", [12, 34], |ask| {
        ask.image.put_reference(IN_CURRENT, 2);
    }),
];

/// What keeps the fallback from opening.
const OPENING_FALLBACK: [Fault; 4] = [
    fault("1 fallback", "a fallback of 2,147,483,648 bytes", [1, 0], |ask| ask.fallback.lengthen(TOO_MANY_BYTES)),
    fault("2 fallback", "other first bytes of the fallback", [2, 0], |ask| ask.fallback.put(0, &[0xff])),
    fault("4 fallback", "a chain that leads back in the fallback", [4, 4], |ask| ask.fallback.put32(NEXT, 4)),
    fault("7 fallback", "a first slot of tag 0 in the fallback", [7, 10], |ask| {
        ask.fallback.put_tag(FIRST_SLOT, 0);
    }),
];

pub fn cases() -> Vec<Case> {
    let choose = |tag, fallback| Ask { fallback, tag, reference: 1, ..Ask::on(Call::Choose, current()) };
    let chosen = [granted("an element of both files", choose(100, fallback()), &[1, 46, 3], Written::default())];
    let behind = granted("an element of the fallback", choose(101, fallback()), &[2, 95, 4], Written::default());
    let (extended, in_fallback) = (over(&EXTENDED, &chosen), over(&BEHIND, &chosen));
    let cases = [
        over(&ABSENT, &chosen),
        over(&UNSTORED, &chosen),
        over(&UNSTORED_EXTENDED[..1], &extended[..1]),
        over(&UNSTORED_EXTENDED[1..], &extended[1..]),
        over(&BEFORE, &in_fallback),
        extended,
        in_fallback,
        chosen.into(),
        vec![behind, machine_type()],
    ];
    with(&OPENING_FALLBACK, cases.concat())
}

/// Today's machine type has no bytes, and is not taken for one that is not stored yet.
fn machine_type() -> Case {
    let mut image = file(&[(107, 1, Vec::new())]);
    image.unstore(PLAIN);
    let ask = Ask { fallback: fallback(), tag: 107, reference: 1, ..Ask::on(Call::Choose, image) };
    granted("a machine type of all ones", ask, &[1, 0, 0], Written::default())
}

/// 302/2 is asked for, and today's file does not have it.
fn only_in_fallback(ask: &mut Ask) {
    (ask.tag, ask.reference) = (302, 2);
    ask.image.put_reference(IN_CURRENT, 3);
}

/// 100/1 at 46, the extended 302/2 at 49.
fn current() -> Image {
    file(&[(100, 1, b"hub".to_vec()), (EXTENDED_302, 2, b"x".to_vec())])
}

/// 103/9, 100/1 and 302/2 at 82, 87 and 90, 101/1 at 95, the extended 104/3 at 99.
fn fallback() -> Image {
    file(&[
        (103, 9, b"spare".to_vec()),
        (100, 1, b"old".to_vec()),
        (302, 2, b"plain".to_vec()),
        (101, 1, b"yard".to_vec()),
        (16488, 3, b"y".to_vec()),
    ])
}
