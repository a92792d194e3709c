//! Undo. Its file is that of the marked case 13, 309 bytes with a long trailer at 273, or one of 305 bytes with an old trailer
//! there; or that of case 12, 74 bytes with a long trailer at 38, or 70 bytes with an old one there.

use super::ask::{Ask, Written};
use super::edits::{one_free_with, removed, replaced, UNSTORED_100, UNSTORED_16484};
use super::{fault, granted, over, refused, two_at_once, Case, Fault};
use crate::cases::edits::{file_12, file_13, old_file_12, DESK};
use crate::cases::pieces::{
    block, change, long_trailer, old_trailer, slot, unstored, Image, ALL_ONES, FREE_SLOT, NEXT,
};
use crate::cases::{A, SECOND_SLOT};
use crate::editor::Form;
use crate::reader::FIRST_BYTES;
use crate::tally::Call;

/// The shortest file.
const EMPTY: [u8; 10] = [FIRST_BYTES[0], FIRST_BYTES[1], FIRST_BYTES[2], FIRST_BYTES[3], 0, 0, 0, 0, 0, 0];

/// Where the fields of a trailer at 273 stand.
const PLACE: usize = 273;
const ALTERED: usize = 277;
const OLD: usize = 281;
const BEFORE: usize = 293;
const PREVIOUS: usize = 297;

/// The same of a trailer at 38.
const PLACE_12: usize = 38;
const ALTERED_12: usize = 42;
const OLD_12: usize = 46;
const BEFORE_12: usize = 58;
const PREVIOUS_12: usize = 62;

/// Where a trailer at 269 names the previous one.
const PREVIOUS_269: usize = 293;

const NO_TRAILER: [Fault; 1] =
    [fault("20", "another last byte", [20, 0], |ask| ask.image.put(ask.image.len() - 1, &[0x4a]))];

/// Where the next field of the first block is put back.
const NEXT_FIELD: [Fault; 7] = [
    fault("21 length before", "a length before of 274", [21, 273], |ask| ask.image.put32(BEFORE, 274)),
    fault("21 past", "a place past the length before", [21, 273], |ask| ask.image.put32(BEFORE, 9)),
    fault("21 bytes altered", "8 bytes altered", [21, 273], |ask| ask.image.put32(ALTERED, 8)),
    fault("21 place", "a place beside the next field", [21, 273], |ask| ask.image.put32(PLACE, 7)),
    fault("21 padding", "a last padding byte that is not zero", [21, 273], |ask| ask.image.put(OLD + 11, &[1])),
    fault("21 previous", "a previous trailer at 37", [21, 273], |ask| ask.image.put32(PREVIOUS, 37)),
    fault("21 restored", "a next block at 5 put back", [21, 273], |ask| ask.image.put32(OLD, 5)),
];

const FIRST_PADDING: [Fault; 1] =
    [fault("21 padding", "a first padding byte that is not zero", [21, 273], |ask| ask.image.put(OLD + 4, &[1]))];

const OTHER_DESK: [Fault; 3] = [
    fault("30", "a desk with another last bit", [30, 273], |ask| ask.desk ^= 1),
    fault("30", "a desk with another first bit", [30, 273], |ask| ask.desk ^= 1 << 31),
    fault("30", "a desk with other bits throughout", [30, 273], |ask| ask.desk = !ask.desk),
];

/// Where a slot is put back. With a place past the length before, the restored file does not open either: it has a slot cut off.
const SLOT: [Fault; 13] = [
    fault("21 length before", "a length before of 39", [21, 38], |ask| ask.image.put32(BEFORE_12, 39)),
    fault("21 length before", "the greatest length before", [21, 38], |ask| ask.image.put32(BEFORE_12, u32::MAX)),
    fault("21 past", "a slot past the length before", [21, 38], |ask| ask.image.put32(BEFORE_12, 33)),
    fault("21 bytes altered", "no bytes altered", [21, 38], |ask| ask.image.put32(ALTERED_12, 0)),
    fault("21 place", "a place beside the slot", [21, 38], |ask| ask.image.put32(PLACE_12, 23)),
    fault("21 place", "the place of a next field", [21, 38], |ask| ask.image.put32(PLACE_12, 6)),
    fault("21 place", "a slot, but 4 bytes altered", [21, 38], |ask| ask.image.put32(ALTERED_12, 4)),
    fault("21 previous", "a previous trailer at 5", [21, 38], |ask| ask.image.put32(PREVIOUS_12, 5)),
    fault("21 previous", "a previous trailer at 1", [21, 38], |ask| ask.image.put32(PREVIOUS_12, 1)),
    fault("21 restored", "a slot of tag 0 put back", [21, 38], |ask| ask.image.put32(OLD_12, 0)),
    fault("21 restored", "an offset of all ones put back", [21, 38], |ask| {
        ask.image.put(OLD_12, &slot(720, 1, ALL_ONES, 1));
    }),
    fault("21 restored", "a length of all ones put back", [21, 38], |ask| {
        ask.image.put(OLD_12, &slot(720, 1, 34, ALL_ONES));
    }),
    fault("21 restored", "a twin that is not stored put back", [21, 38], |ask| {
        ask.image.put(OLD_12, &UNSTORED_100);
    }),
];

const OTHER_DESK_12: [Fault; 1] = [fault("30", "another desk", [30, 38], |ask| ask.desk = 5)];

/// Above an old trailer of a file of 70 bytes, the previous one stands at 38.
const ABOVE_OLD: [Fault; 3] = [
    fault("21 previous", "no previous trailer", [21, 269], |ask| ask.image.put32(PREVIOUS_269, 0)),
    fault("21 previous", "a previous trailer at 70 - 36", [21, 269], |ask| ask.image.put32(PREVIOUS_269, 34)),
    fault("30", "another desk", [30, 269], |ask| ask.desk = 5),
];

/// Above a long trailer of a file of 74 bytes, the previous one of a long one stands at 38.
const LONG_ABOVE_LONG: [Fault; 2] = [
    fault("21 previous", "no previous trailer", [21, 273], |ask| ask.image.put32(PREVIOUS, 0)),
    fault("21 previous", "a previous trailer at 74 - 32", [21, 273], |ask| ask.image.put32(PREVIOUS, 42)),
];

/// An old one names none there.
const OLD_ABOVE_LONG: [Fault; 2] = [
    fault("21 previous", "a previous trailer at 74 - 36", [21, 273], |ask| ask.image.put32(PREVIOUS, 38)),
    fault("21 previous", "a previous trailer at 74 - 32", [21, 273], |ask| ask.image.put32(PREVIOUS, 42)),
];

pub fn cases() -> Vec<Case> {
    let long = [undone("a next field", undo(&file_13(DESK)), 74, &file_12(DESK))];
    let long_slot = [undone("a slot", undo(&file_12(DESK)), 37, &A)];
    let old = [undone("a next field", undo_old(&old_above_long()), 74, &file_12(DESK))];
    let old_slot = [undone("a slot", undo_old(&old_file_12()), 37, &A)];
    let short = short_files(undo, [b"----BAC2", b"-----BAC2"], file_12(DESK), (0x4b, 42));
    let short_old = short_files(undo_old, [b"BACK", b"-BACK"], old_file_12(), (0x32, 34));
    let of_old = [
        rules(&old, &old_slot),
        over(&OLD_ABOVE_LONG, &old),
        old_above_old(),
        short_old,
        above_what_ends_like_a_trailer(Form::Old),
    ];
    [
        rules(&long, &long_slot),
        over(&LONG_ABOVE_LONG, &long),
        long_above_old(),
        unstored_slots(),
        short,
        above_what_ends_like_a_trailer(Form::Long),
        of_old.concat().into_iter().map(Case::of_old_trailer).collect(),
    ]
    .concat()
}

/// Each rule of a trailer, on a file whose next field is put back and on one whose slot is; and each two.
fn rules(next_field: &[Case], slot: &[Case]) -> Vec<Case> {
    [
        over(&NO_TRAILER, next_field),
        over(&NEXT_FIELD, next_field),
        over(&FIRST_PADDING, next_field),
        over(&OTHER_DESK, next_field),
        two_rules(next_field),
        over(&SLOT, slot),
        over(&OTHER_DESK_12, slot),
        over(&SLOT, &over(&OTHER_DESK_12, slot)),
        next_field.into(),
        slot.into(),
    ]
    .concat()
}

/// Each two rules of a trailer. The first two are not broken at once: one asks for less in a field, the other for more.
fn two_rules(undone: &[Case]) -> Vec<Case> {
    let (lengths, others) = NEXT_FIELD.split_at(2);
    let desk = over(&OTHER_DESK[..1], undone);
    [over(lengths, &over(others, undone)), two_at_once(others, undone), over(&NEXT_FIELD, &desk)].concat()
}

/// The file of case 12 and behind it a block with 40000/6, its byte and the trailer of that add.
fn second_added(first: Vec<u8>, trailer: Vec<u8>) -> Vec<u8> {
    let n = first.len() as u32;
    let slots = [&slot(40000, 6, n + 198, 1)[..], &FREE_SLOT.repeat(15)].concat();
    [&first[..NEXT], &n.to_be_bytes(), &first[NEXT + 4..], &block(16, 0), &slots, &[0x2b], &trailer].concat()
}

/// The trailer names none, since an old one does not know a long one.
fn old_above_long() -> Vec<u8> {
    second_added(file_12(DESK), old_trailer(change(6, 4, [0; 12], 74, 0)))
}

fn long_above_old() -> Vec<Case> {
    let file = second_added(old_file_12(), long_trailer(change(6, 4, [0; 12], 70, 38), DESK));
    above_old(undo(&file))
}

fn old_above_old() -> Vec<Case> {
    let file = second_added(old_file_12(), old_trailer(change(6, 4, [0; 12], 70, 38)));
    above_old(undo_old(&file))
}

fn above_old(ask: Ask) -> Vec<Case> {
    let undone = [undone("a next field, above an old trailer", ask, 70, &old_file_12())];
    [over(&ABOVE_OLD, &undone), undone.into()].concat()
}

/// The slot that is put back is not stored yet, left so by an edit or made up.
fn unstored_slots() -> Vec<Case> {
    let edited = |of, file: Vec<u8>, slot| undone(of, undo(&file), 37, &one_free_with(slot));
    let put_back = |of, slot: [u8; 12]| {
        let made_up = [&file_12(DESK)[..OLD_12], &slot, &file_12(DESK)[BEFORE_12..]].concat();
        let restored = [&A[..SECOND_SLOT], &slot, &A[SECOND_SLOT + 12..]].concat();
        undone(of, undo(&made_up), 37, &restored)
    };
    vec![
        edited("a replacement of an element that was not stored", replaced(UNSTORED_100), UNSTORED_100),
        edited("a removal of an element that was not stored", removed(UNSTORED_100), UNSTORED_100),
        edited("a replacement of an extended one that was not stored", replaced(UNSTORED_16484), UNSTORED_16484),
        edited("a removal of an extended one that was not stored", removed(UNSTORED_16484), UNSTORED_16484),
        put_back("a slot that was not stored", unstored(720)),
        put_back("an extended slot that was not stored", unstored(17104)),
        put_back("a machine type of all ones", unstored(107)),
    ]
}

/// The shortest files that carry a trailer of each form, and shorter ones. They have no slot.
pub fn shortest_files() -> Vec<Case> {
    let change = change(6, 4, [0; 12], 10, 0);
    let with = |trailer: &[u8]| [&EMPTY[..], trailer].concat();
    let (long, old) = (long_trailer(change.clone(), DESK), old_trailer(change));
    let no_trailer = |of, trailer| refused(of, "20", undo(&with(trailer)), [20, 0]);
    let of_old = [
        undone("42 bytes", undo_old(&with(&old)), 10, &EMPTY),
        refused("42 bytes, by another desk", "30", undo(&with(&old)), [30, 10]),
        refused("41 bytes", "20", undo_old(&with(&old[1..])), [20, 0]),
    ];
    let of_long = [
        undone("46 bytes", undo(&with(&long)), 10, &EMPTY),
        refused("46 bytes, by desk 0", "30", undo_old(&with(&long)), [30, 10]),
        no_trailer("45 bytes", &long[1..]),
        no_trailer("44 bytes", &long[2..]),
        no_trailer("43 bytes", &long[3..]),
        no_trailer("42 bytes", &long[4..]),
        no_trailer("41 bytes", &long[5..]),
    ];
    of_old.map(Case::of_old_trailer).into_iter().chain(of_long).collect()
}

/// File A with bytes behind it that end like a trailer, one too few for it and just enough; the file of case 12 with a last byte
/// of the other form, whose trailer would stand elsewhere; and the same with a length before that ends right before the trailer.
fn short_files(undo: fn(&[u8]) -> Ask, [few, enough]: [&[u8]; 2], first: Vec<u8>, other: (u8, u64)) -> Vec<Case> {
    let (last, place) = other;
    let turned = [&first[..first.len() - 1], &[last]].concat();
    let longest_before = [&first[..BEFORE_12], &[0, 0, 0, 38], &first[PREVIOUS_12..]].concat();
    let behind_a = |bytes: &[u8]| undo(&[&A[..], bytes].concat());
    vec![
        refused("file A", "20", undo(&A), [20, 0]),
        refused("too few bytes that end like a trailer", "20", behind_a(few), [20, 0]),
        refused("just enough bytes that end like a trailer", "21 bytes altered", behind_a(enough), [21, 10]),
        refused("a trailer that ends like one of the other form", "21 bytes altered", undo(&turned), [21, place]),
        undone("a length before of 38", undo(&longest_before), 38, &[&A[..], &[0x2a]].concat()),
    ]
}

/// File A and bytes behind it that end like a trailer, and behind them a trailer of this form: whether they count as the previous
/// one.
fn above_what_ends_like_a_trailer(form: Form) -> Vec<Case> {
    let files: [(&str, &[u8], u32, u32); 5] = [
        ("what stands above 45 bytes like a long trailer", b"----BAC2", 0, 0),
        ("what stands above 46 bytes like a long trailer", b"-----BAC2", 10, 0),
        ("what stands above 42 bytes like a long trailer", b"-BAC2", 0, 0),
        ("what stands above 41 bytes like an old trailer", b"BACK", 0, 0),
        ("what stands above 42 bytes like an old trailer", b"-BACK", 10, 10),
    ];
    let cases = files.map(|(of, behind, long, old)| match form {
        Form::Long => {
            each_previous(of, behind, long, |file, change| undo(&[file, &long_trailer(change, DESK)].concat()))
        }
        Form::Old => each_previous(of, behind, old, |file, change| undo_old(&[file, &old_trailer(change)].concat())),
    });
    cases.concat()
}

/// The undo of an edit that put a free slot in place of a free slot, with the right previous trailer and with others.
fn each_previous(of: &'static str, behind: &[u8], right: u32, undo: fn(&[u8], Vec<u8>) -> Ask) -> Vec<Case> {
    let file = [&A[..], behind].concat();
    let n = file.len() as u32;
    let with = |previous| undo(&file, change(22, 12, FREE_SLOT, n, previous));
    let names = ["no previous trailer", "a previous trailer 32 bytes before", "a previous trailer 36 bytes before"];
    let wrong = names.into_iter().zip([0, n - 32, n - 36]).filter(|(_, previous)| *previous != right);
    let refused = wrong.map(|(name, previous)| Case {
        faults: vec![name],
        ..refused(of, "21 previous", with(previous), [21, n.into()])
    });
    refused.chain([undone(of, with(right), n.into(), &file)]).collect()
}

/// An undo by the desk of the long trailers.
fn undo(file: &[u8]) -> Ask {
    Ask { desk: DESK, ..undo_old(file) }
}

/// An undo by desk 0.
fn undo_old(file: &[u8]) -> Ask {
    Ask { behind: 40, ..Ask::on(Call::Undo, Image::from(file.to_vec())) }
}

fn undone(of: &'static str, ask: Ask, length: u64, file: &[u8]) -> Case {
    granted(of, ask, &[length], Written::bytes(file))
}
