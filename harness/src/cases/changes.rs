//! Replacing, removing and empty data, on file A and on file A with an element that is extended, or not stored yet, or both: the
//! file after each edit, every byte, written down from the paper. All edits are undone, which gives back each file before. They
//! are all of one desk, 01020304.

use super::edits::{granted, refused, Steps, DESK};
use super::pieces::hex;
use crate::editor::{Edit, Kind, Request, NO_EDIT};
use crate::tally::Tally;

const CAPACITY: usize = 200;

const A: &str = "0e031301 0002 00000000
    006400010000002200000003 000100000000000000000000 687562";

/// The same with 100/1 extended.
const EXTENDED: &str = "0e031301 0002 00000000
    406400010000002200000003 000100000000000000000000 687562";

/// The element 100/1 replaced by five bytes: its slot, the data at 37, the trailer at 42.
const REPLACED: &str = "0e031301 0002 00000000
    006400010000002500000005 000100000000000000000000 687562 6465706f74
    0000000a 0000000c 006400010000002200000003 00000025 00000000 01020304 42414332";

/// Then by one byte at 78. The trailer names the one at 42.
const REPLACED_TWICE: &str = "0e031301 0002 00000000
    006400010000004e00000001 000100000000000000000000 687562 6465706f74
    0000000a 0000000c 006400010000002200000003 00000025 00000000 01020304 42414332 2a
    0000000a 0000000c 006400010000002500000005 0000004e 0000002a 01020304 42414332";

/// Replaced by no bytes: its offset is 0, the trailer stands at 37.
const EMPTIED: &str = "0e031301 0002 00000000
    006400010000000000000000 000100000000000000000000 687562
    0000000a 0000000c 006400010000002200000003 00000025 00000000 01020304 42414332";

const REMOVED: &str = "0e031301 0002 00000000
    000100000000000000000000 000100000000000000000000 687562
    0000000a 0000000c 006400010000002200000003 00000025 00000000 01020304 42414332";

/// Then 40000/5 added, in the slot that was freed: the data at 73, the trailer names the one at 37.
const USED_AGAIN: &str = "0e031301 0002 00000000
    9c4000050000004900000001 000100000000000000000000 687562
    0000000a 0000000c 006400010000002200000003 00000025 00000000 01020304 42414332 2a
    0000000a 0000000c 000100000000000000000000 00000049 00000025 01020304 42414332";

/// 40000/5 added with no bytes.
const EMPTY_ADDED: &str = "0e031301 0002 00000000
    006400010000002200000003 9c4000050000000000000000 687562
    00000016 0000000c 000100000000000000000000 00000025 00000000 01020304 42414332";

/// An extended element replaced: the slot has the base tag then.
const EXTENDED_REPLACED: &str = "0e031301 0002 00000000
    006400010000002500000005 000100000000000000000000 687562 6465706f74
    0000000a 0000000c 406400010000002200000003 00000025 00000000 01020304 42414332";

const EXTENDED_REMOVED: &str = "0e031301 0002 00000000
    000100000000000000000000 000100000000000000000000 687562
    0000000a 0000000c 406400010000002200000003 00000025 00000000 01020304 42414332";

/// File A with 100/1 not stored yet. Its three bytes are nobody's.
const UNSTORED: &str = "0e031301 0002 00000000
    00640001ffffffffffffffff 000100000000000000000000 687562";

const UNSTORED_REPLACED: &str = "0e031301 0002 00000000
    006400010000002500000005 000100000000000000000000 687562 6465706f74
    0000000a 0000000c 00640001ffffffffffffffff 00000025 00000000 01020304 42414332";

/// Replaced by no bytes: it is stored then, and empty.
const UNSTORED_EMPTIED: &str = "0e031301 0002 00000000
    006400010000000000000000 000100000000000000000000 687562
    0000000a 0000000c 00640001ffffffffffffffff 00000025 00000000 01020304 42414332";

const UNSTORED_REMOVED: &str = "0e031301 0002 00000000
    000100000000000000000000 000100000000000000000000 687562
    0000000a 0000000c 00640001ffffffffffffffff 00000025 00000000 01020304 42414332";

/// Then added again, in the slot that was freed: the data at 73, the trailer names the one at 37.
const UNSTORED_ADDED: &str = "0e031301 0002 00000000
    006400010000004900000001 000100000000000000000000 687562
    0000000a 0000000c 00640001ffffffffffffffff 00000025 00000000 01020304 42414332 2a
    0000000a 0000000c 000100000000000000000000 00000049 00000025 01020304 42414332";

/// File A with 100/1 extended and not stored yet.
const BOTH: &str = "0e031301 0002 00000000
    40640001ffffffffffffffff 000100000000000000000000 687562";

const BOTH_REPLACED: &str = "0e031301 0002 00000000
    006400010000002500000005 000100000000000000000000 687562 6465706f74
    0000000a 0000000c 40640001ffffffffffffffff 00000025 00000000 01020304 42414332";

const BOTH_REMOVED: &str = "0e031301 0002 00000000
    000100000000000000000000 000100000000000000000000 687562
    0000000a 0000000c 40640001ffffffffffffffff 00000025 00000000 01020304 42414332";

/// A case: its name, the file at first, and edits with length and bytes of the file after each.
type Case<'a> = (&'a str, &'a str, Vec<(Request, u64, &'a str)>);

/// Holds all cases against library, editor and history; answers how many there are.
pub fn check(tally: &mut Tally) -> Result<usize, String> {
    let replace = |data| edit(Kind::Replace, (100, 1), data);
    let remove = || edit(Kind::Remove, (100, 1), b"");
    let add = |data| edit(Kind::Add, (40000, 5), data);
    let again = edit(Kind::Add, (100, 1), b"*");
    let replaced = (replace(b"depot"), 78, REPLACED);
    let cases: [Case; 12] = [
        ("an element replaced", A, vec![replaced.clone()]),
        ("an element replaced twice", A, vec![replaced, (replace(b"*"), 115, REPLACED_TWICE)]),
        ("an element replaced by no bytes", A, vec![(replace(b""), 73, EMPTIED)]),
        ("a slot freed and used again", A, vec![(remove(), 73, REMOVED), (add(b"*"), 110, USED_AGAIN)]),
        ("an element of no bytes added", A, vec![(add(b""), 73, EMPTY_ADDED)]),
        ("an extended element replaced", EXTENDED, vec![(replace(b"depot"), 78, EXTENDED_REPLACED)]),
        ("an extended element removed", EXTENDED, vec![(remove(), 73, EXTENDED_REMOVED)]),
        ("an unstored element replaced", UNSTORED, vec![(replace(b"depot"), 78, UNSTORED_REPLACED)]),
        ("an unstored element emptied", UNSTORED, vec![(replace(b""), 73, UNSTORED_EMPTIED)]),
        (
            "an unstored element added again",
            UNSTORED,
            vec![(remove(), 73, UNSTORED_REMOVED), (again, 110, UNSTORED_ADDED)],
        ),
        ("an unstored extended element replaced", BOTH, vec![(replace(b"depot"), 78, BOTH_REPLACED)]),
        ("an unstored extended element removed", BOTH, vec![(remove(), 73, BOTH_REMOVED)]),
    ];
    cases.iter().try_for_each(|case| play(case, tally))?;
    Ok(cases.len())
}

/// All edits, then all undos, and one more that has nothing to undo.
fn play((name, start, edits): &Case, tally: &mut Tally) -> Result<(), String> {
    let start = hex(start);
    let mut steps = Steps::new(&start, CAPACITY, tally);
    let mut files = vec![(37, start.clone())];
    for (request, length, file) in edits {
        files.push((*length, hex(file)));
        steps.step(name, request, granted(*length), &hex(file), files.len() - 1)?;
    }
    for (edits, (length, file)) in files.iter().enumerate().rev().skip(1) {
        steps.step(name, &Request::Undo { desk: DESK }, granted(*length), file, edits)?;
    }
    steps.step(name, &Request::Undo { desk: DESK }, refused(NO_EDIT), &start, 0)
}

fn edit(kind: Kind, (tag, reference): (u16, u16), data: &[u8]) -> Request {
    Request::Edit(Edit { desk: DESK, kind, tag, reference, data: data.to_vec() })
}
