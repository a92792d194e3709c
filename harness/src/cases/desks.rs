//! Two desks on one file, and trailers of both forms on one: the file after each call, every byte, written down from the paper.

use super::edits::{granted, refused_at, Steps};
use super::pieces::hex;
use crate::editor::{Edit, Kind, Request, BAD_TRAILER, NO_EDIT, OTHER_DESK};
use crate::tally::Tally;

const CAPACITY: usize = 200;

/// The desk of the adds, and that of the replacements above them.
const NINE: u32 = 9;
const LAST: u32 = 4_294_967_295;

const A: &str = "0e031301 0002 00000000
    006400010000002200000003 000100000000000000000000 687562";

/// File A with 40000/5 added, before trailers named a desk: 70 bytes, the trailer at 38.
const OLD: &str = "0e031301 0002 00000000
    006400010000002200000003 9c4000050000002500000001 687562 2a
    00000016 0000000c 000100000000000000000000 00000025 00000000 4241434b";

/// The same by desk 9: 74 bytes, the trailer at 38.
const LONG: &str = "0e031301 0002 00000000
    006400010000002200000003 9c4000050000002500000001 687562 2a
    00000016 0000000c 000100000000000000000000 00000025 00000000 00000009 42414332";

/// Then 100/1 replaced by the last desk: the byte at 70, the trailer at 71, which names the old one.
const LONG_ABOVE_OLD: &str = "0e031301 0002 00000000
    006400010000004600000001 9c4000050000002500000001 687562 2a
    00000016 0000000c 000100000000000000000000 00000025 00000000 4241434b 2b
    0000000a 0000000c 006400010000002200000003 00000046 00000026 ffffffff 42414332";

/// The same above the long trailer: the byte at 74, the trailer at 75.
const LONG_ABOVE_LONG: &str = "0e031301 0002 00000000
    006400010000004a00000001 9c4000050000002500000001 687562 2a
    00000016 0000000c 000100000000000000000000 00000025 00000000 00000009 42414332 2b
    0000000a 0000000c 006400010000002200000003 0000004a 00000026 ffffffff 42414332";

/// The same from before trailers named a desk: the trailer at 75 names none, since the one at 38 is long.
const OLD_ABOVE_LONG: &str = "0e031301 0002 00000000
    006400010000004a00000001 9c4000050000002500000001 687562 2a
    00000016 0000000c 000100000000000000000000 00000025 00000000 00000009 42414332 2b
    0000000a 0000000c 006400010000002200000003 0000004a 00000000 4241434b";

/// A call with what it makes: a file and the number of edits that the history then holds, or number and place of a refusal.
type Step = (Request, Result<(&'static str, usize), [u64; 2]>);

/// Holds all cases against library, editor and history; answers how many there are.
pub fn check(tally: &mut Tally) -> Result<usize, String> {
    let with_previous = |file: &str, right: &str, other: &str| {
        let (front, trailer) = file.rsplit_once(right).expect("the previous trailer");
        [front, other, trailer].concat()
    };
    let above_old = |previous| with_previous(LONG_ABOVE_OLD, "00000026", previous);
    let above_long = |previous| with_previous(OLD_ABOVE_LONG, "00000000", previous);
    let cases = [
        ("a long trailer above an old one", OLD.into(), long_above_old()),
        ("a start file with a long trailer above an old one", LONG_ABOVE_OLD.into(), long_above_old()[1..].to_vec()),
        ("a start file with an old trailer above a long one", OLD_ABOVE_LONG.into(), old_above_long()),
        ("two desks", A.into(), two_desks()),
        ("a long trailer that names none above an old one", above_old("00000000"), broken(71)),
        ("a long trailer that names one at 70 - 36", above_old("00000022"), broken(71)),
        ("an old trailer that names one at 74 - 36", above_long("00000026"), broken(75)),
        ("an old trailer that names one at 74 - 32", above_long("0000002a"), broken(75)),
    ];
    cases.iter().try_for_each(|(name, start, steps)| play(name, start, steps, tally))?;
    Ok(cases.len())
}

fn long_above_old() -> Vec<Step> {
    vec![
        (edit(LAST, Kind::Replace, (100, 1), 0x2b), Ok((LONG_ABOVE_OLD, 1))),
        (undo(0), Err([OTHER_DESK, 71])),
        (undo(NINE), Err([OTHER_DESK, 71])),
        (undo(LAST), Ok((OLD, 0))),
        (undo(LAST), Err([OTHER_DESK, 38])),
        (undo(0), Ok((A, 0))),
        (undo(0), Err([NO_EDIT, 0])),
    ]
}

fn old_above_long() -> Vec<Step> {
    vec![
        (undo(NINE), Err([OTHER_DESK, 75])),
        (undo(0), Ok((LONG, 0))),
        (undo(0), Err([OTHER_DESK, 38])),
        (undo(NINE), Ok((A, 0))),
        (undo(NINE), Err([NO_EDIT, 0])),
    ]
}

fn two_desks() -> Vec<Step> {
    vec![
        (edit(NINE, Kind::Add, (40000, 5), 0x2a), Ok((LONG, 1))),
        (undo(LAST), Err([OTHER_DESK, 38])),
        (edit(LAST, Kind::Replace, (100, 1), 0x2b), Ok((LONG_ABOVE_LONG, 2))),
        (undo(NINE), Err([OTHER_DESK, 75])),
        (undo(LAST), Ok((LONG, 1))),
        (undo(LAST), Err([OTHER_DESK, 38])),
        (undo(NINE), Ok((A, 0))),
        (undo(LAST), Err([NO_EDIT, 0])),
    ]
}

/// No desk can undo by a broken trailer.
fn broken(place: u64) -> Vec<Step> {
    [0, NINE, LAST].map(|desk| (undo(desk), Err([BAD_TRAILER, place]))).into()
}

/// One call after the other. A refused one leaves the file and the history as they are.
fn play(name: &str, start: &str, steps: &[Step], tally: &mut Tally) -> Result<(), String> {
    let (mut file, mut edits) = (hex(start), 0);
    let mut played = Steps::new(&file, CAPACITY, tally);
    for (request, outcome) in steps {
        let answer = match outcome {
            Ok((made, held)) => {
                (file, edits) = (hex(made), *held);
                granted(file.len() as u64)
            }
            Err([number, place]) => refused_at(*number, *place),
        };
        played.step(name, request, answer, &file, edits)?;
    }
    Ok(())
}

fn edit(desk: u32, kind: Kind, (tag, reference): (u16, u16), byte: u8) -> Request {
    Request::Edit(Edit { desk, kind, tag, reference, data: vec![byte] })
}

fn undo(desk: u32) -> Request {
    Request::Undo { desk }
}
