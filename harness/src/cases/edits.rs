//! The marked cases 12 to 15: two adds to file A and three undos, all of one desk, with the bytes of each file.

use super::pieces::{FREE_SLOT, NEXT};
use super::{A, SECOND_SLOT};
use crate::compare::edits::{first_difference, Lending};
use crate::editor::{Edit, Kind, Request, NO_EDIT, NO_ROOM};
use crate::tally::Tally;
use hdf4_sys::EditAnswer;

/// A desk whose bytes all differ.
pub const DESK: u32 = 0x0102_0304;

/// The desks that play the cases, one after the other.
const DESKS: [u32; 3] = [DESK, 0, 4_294_967_295];

/// Case 12: the slot that the add writes, and the trailer up to its desk.
const SLOT_12: [u8; 12] = [0x9c, 0x40, 0x00, 0x05, 0x00, 0x00, 0x00, 0x25, 0x00, 0x00, 0x00, 0x01];
const TRAILER_12: [u8; 28] = [
    0x00, 0x00, 0x00, 0x16, // place altered
    0x00, 0x00, 0x00, 0x0c, // bytes altered
    0x00, 0x01, 0x00, 0x00, 0x00, 0x00, 0x00, 0x00, 0x00, 0x00, 0x00, 0x00, // old bytes
    0x00, 0x00, 0x00, 0x25, // length before
    0x00, 0x00, 0x00, 0x00, // no previous trailer
];

/// Case 13: the next field of the first block, the head and the first slot of the new one, and the trailer up to its desk.
const NEXT_13: [u8; 4] = [0x00, 0x00, 0x00, 0x4a];
const HEAD_13: [u8; 6] = [0x00, 0x10, 0x00, 0x00, 0x00, 0x00];
const SLOT_13: [u8; 12] = [0x9c, 0x40, 0x00, 0x06, 0x00, 0x00, 0x01, 0x10, 0x00, 0x00, 0x00, 0x01];
const TRAILER_13: [u8; 28] = [
    0x00, 0x00, 0x00, 0x06, // place altered
    0x00, 0x00, 0x00, 0x04, // bytes altered
    0x00, 0x00, 0x00, 0x00, 0x00, 0x00, 0x00, 0x00, 0x00, 0x00, 0x00, 0x00, // old bytes and padding
    0x00, 0x00, 0x00, 0x4a, // length before
    0x00, 0x00, 0x00, 0x26, // previous trailer
];

const LONG_CLOSING: [u8; 4] = [0x42, 0x41, 0x43, 0x32];
const OLD_CLOSING: [u8; 4] = [0x42, 0x41, 0x43, 0x4b];

const ROOMY: usize = 400;
const ONE_TOO_SMALL: usize = 308;
const PAST_FILE: u8 = 0xee;

/// Holds the cases against library, editor and history; answers how many there are.
pub fn check(tally: &mut Tally) -> Result<usize, String> {
    DESKS.into_iter().try_for_each(|desk| check_with(desk, tally))?;
    Ok(4)
}

fn check_with(desk: u32, tally: &mut Tally) -> Result<(), String> {
    let (a, second, third) = (A.to_vec(), file_12(desk), file_13(desk));
    let (add_5, add_6, undo) = (add(desk, 5, 0x2a), add(desk, 6, 0x2b), Request::Undo { desk });
    let mut roomy = Steps::new(&A, ROOMY, tally);
    roomy.step("marked case 12", &add_5, granted(74), &second, 1)?;
    roomy.step("marked case 13", &add_6, granted(309), &third, 2)?;
    roomy.step("marked case 14", &undo, granted(74), &second, 1)?;
    roomy.step("marked case 14", &undo, granted(37), &a, 0)?;
    roomy.step("marked case 15", &undo, refused(NO_EDIT), &a, 0)?;

    let mut small = Steps::new(&A, ONE_TOO_SMALL, tally);
    small.step("marked case 12", &add_5, granted(74), &second, 1)?;
    small.step("marked case 13", &add_6, refused(NO_ROOM), &second, 1)?;
    small.step("marked case 14", &undo, granted(37), &a, 0)
}

/// Calls one after the other on a file at the front of a buffer.
pub struct Steps<'a> {
    lending: Lending,
    tally: &'a mut Tally,
}

impl Steps<'_> {
    pub fn new<'a>(file: &[u8], capacity: usize, tally: &'a mut Tally) -> Steps<'a> {
        let lending = Lending::new(file, &vec![PAST_FILE; capacity - file.len()], 3);
        Steps { lending, tally }
    }

    /// One call: its answer, the file after it, and how many edits the history then holds.
    pub fn step(
        &mut self,
        case: &str,
        request: &Request,
        answer: EditAnswer,
        file: &[u8],
        edits: usize,
    ) -> Result<(), String> {
        let library = self.lending.call(request, self.tally);
        let library = library.map_err(|difference| format!("{case}\n{difference}"))?;
        if library != answer {
            return Err(format!("{case}\npaper   {answer:?}\nlibrary {library:?}"));
        }
        if let Some(difference) = first_difference(self.lending.file(), file) {
            return Err(format!("{case}: {difference}"));
        }
        match self.lending.history().edits() {
            held if held == edits => Ok(()),
            held => Err(format!("{case}: the history holds {held} edits, not {edits}")),
        }
    }
}

fn add(desk: u32, reference: u16, byte: u8) -> Request {
    Request::Edit(Edit { desk, kind: Kind::Add, tag: 40000, reference, data: vec![byte] })
}

pub fn granted(length: u64) -> EditAnswer {
    EditAnswer { number: 0, place: 0, length }
}

pub fn refused(number: u64) -> EditAnswer {
    refused_at(number, 0)
}

pub fn refused_at(number: u64, place: u64) -> EditAnswer {
    EditAnswer { number, place, length: 0 }
}

/// The file after case 12.
pub fn file_12(desk: u32) -> Vec<u8> {
    [&added_12()[..], &desk.to_be_bytes(), &LONG_CLOSING].concat()
}

/// The same with a trailer of the old form.
pub fn old_file_12() -> Vec<u8> {
    [&added_12()[..], &OLD_CLOSING].concat()
}

fn added_12() -> Vec<u8> {
    let mut file = A.to_vec();
    file[SECOND_SLOT..SECOND_SLOT + 12].copy_from_slice(&SLOT_12);
    [&file[..], &[0x2a], &TRAILER_12].concat()
}

/// The file after case 13.
pub fn file_13(desk: u32) -> Vec<u8> {
    let mut file = file_12(desk);
    file[NEXT..NEXT + 4].copy_from_slice(&NEXT_13);
    let block = [&HEAD_13[..], &SLOT_13, &FREE_SLOT.repeat(15)].concat();
    [&file[..], &block, &[0x2b], &TRAILER_13, &desk.to_be_bytes(), &LONG_CLOSING].concat()
}
