//! Lookup and listing.

use super::ask::{Ask, Rooms, Written};
use super::{fault, granted, over, Case, Fault};
use crate::cases::pieces::{file, Image, ALL_ONES};
use crate::tally::Call;

/// 100/1 has its slot at 22, the extended 302/2 at 34. Their bytes stand at 46 and 49.
fn elements() -> Image {
    file(&[(100, 1, b"hub".to_vec()), (16686, 2, b"x".to_vec())])
}

/// The same, both not stored yet.
fn unstored() -> Image {
    let mut image = elements();
    image.unstore(22);
    image.unstore(34);
    image
}

const ABSENT: [Fault; 4] = [
    fault("11", "a tag that is not there", [11, 0], |ask| ask.tag = 101),
    fault("11", "a reference that is not there", [11, 0], |ask| ask.reference = 2),
    fault("11", "tag and reference of a free slot", [11, 0], |ask| (ask.tag, ask.reference) = (1, 0)),
    fault("11", "a tag 32,768 above", [11, 0], |ask| ask.tag = 32868),
];

const SMALL: [Fault; 2] = [
    fault("14", "one entry too few for two elements", [14, 0], |ask| ask.rooms.longs = 7),
    fault("14", "no room for two elements", [14, 0], |ask| ask.rooms.longs = 0),
];

pub fn cases() -> Vec<Case> {
    let find = |of, (tag, reference), image, slot| {
        granted(of, Ask { tag, reference, ..Ask::on(Call::Find, image) }, &[slot], Written::default())
    };
    let list = |of, image, longs: [u32; 8]| {
        let rooms = Rooms { longs: 9, ..Rooms::default() };
        granted(of, Ask { rooms, ..Ask::on(Call::List, image) }, &[2], Written::longs(&longs))
    };
    let found = [
        find("a plain element", (100, 1), elements(), 22),
        find("an element that is not stored yet", (100, 1), unstored(), 22),
    ];
    let others = [
        find("a plain element by the extended tag", (16484, 1), elements(), 22),
        find("an extended element by the base tag", (302, 2), elements(), 34),
        find("an extended one that is not stored yet", (16686, 2), unstored(), 34),
        find("an extended one that is not stored yet by the base tag", (302, 2), unstored(), 34),
    ];
    let ones = ALL_ONES;
    let listed = [
        list("two elements", elements(), [100, 1, 46, 3, 16686, 2, 49, 1]),
        list("two elements that are not stored yet", unstored(), [100, 1, ones, ones, 16686, 2, ones, ones]),
    ];
    [over(&ABSENT, &found), found.into(), others.into(), over(&SMALL, &listed), listed.into()].concat()
}
