//! Edits of files almost as long as a file may be, and of a small file with data as long as that.

use super::MOST;
use crate::compare::edits::{call_library, expected, first_difference, same_answer};
use crate::editor::{self, slot, Change, Edit, Form, Kind, Reason, Refused, Request, BLOCK_SIZE};
use crate::reader::{FIRST_BYTES, FREE, MOST_BLOCKS};
use crate::tally::Tally;
use hdf4_sys::EditAnswer;

const TRAILER_SIZE: usize = Form::Long.size();
const DESK: u32 = 7;
const WATCHED: usize = 4096;
const PAST_LIMIT: usize = 300;

/// A buffer too large to copy. Both ends of the file in it are watched, and the bytes behind it.
struct Long<'a> {
    buffer: &'a mut [u8],
    tally: &'a mut Tally,
}

/// The watched bytes as they must be, each part with its place.
struct Watched {
    parts: [(usize, Vec<u8>); 2],
}

/// Edits of long files. The memory holds zeros but for its first bytes.
pub fn compare_long_files(memory: &mut [u8], tally: &mut Tally) -> Result<(), String> {
    let add = |size| edit(Kind::Add, 40000, 5, size);
    let one_free = [slot(100, 1, 0, 0), slot(FREE, 0, 0, 0)].concat();
    put_directory(memory, &one_block(&one_free));
    let mut long = Long { buffer: &mut memory[..MOST + PAST_LIMIT], tally };
    at_the_limit(&mut long)?;
    other_rules(&mut long)?;
    long.shorter(MOST).refused(MOST - TRAILER_SIZE, &add(1), Reason::Limit)?;
    long.shorter(MOST - 1).refused(MOST - TRAILER_SIZE - 1, &add(1), Reason::Room)?;

    let none_free = [slot(100, 1, 0, 0), slot(100, 2, 0, 0)].concat();
    put_directory(long.buffer, &one_block(&none_free));
    let most_before = MOST - BLOCK_SIZE - TRAILER_SIZE - 1;
    long.granted(most_before, &add(1))?;
    long.refused(most_before, &add(2), Reason::Limit)?;
    long.refused(most_before + 1, &add(1), Reason::Limit)?;

    put_directory(long.buffer, &empty_blocks(MOST_BLOCKS));
    long.refused(MOST, &add(1), Reason::Blocks)
}

/// Edits that end just at the limit, and others one byte past it.
fn at_the_limit(long: &mut Long) -> Result<(), String> {
    let most_before = MOST - TRAILER_SIZE;
    for (kind, tag, reference) in [(Kind::Add, 40000, 5), (Kind::Replace, 100, 1)] {
        for size in [0, 1, 20] {
            long.granted(most_before - size, &edit(kind, tag, reference, size))?;
            long.refused(most_before - size, &edit(kind, tag, reference, size + 1), Reason::Limit)?;
            long.refused(most_before - size + 1, &edit(kind, tag, reference, size), Reason::Limit)?;
        }
    }
    let remove = edit(Kind::Remove, 100, 1, 0);
    long.granted(most_before, &remove)?;
    long.refused(most_before + 1, &remove, Reason::Limit)?;
    long.refused(MOST, &remove, Reason::Limit)
}

/// The rules before the limit, on a file that no edit can make longer, and lengths past the limit.
fn other_rules(long: &mut Long) -> Result<(), String> {
    let remove = edit(Kind::Remove, 100, 1, 0);
    long.refused(MOST, &edit(Kind::Add, 107, 1, 1), Reason::Tag)?;
    long.refused(MOST, &edit(Kind::Add, 100, 1, 1), Reason::Present)?;
    long.refused(MOST, &edit(Kind::Replace, 100, 2, 1), Reason::Absent)?;
    for n in [MOST + 1, MOST + PAST_LIMIT, MOST + PAST_LIMIT + 1] {
        long.refused(n, &remove, Reason::Length)?;
        long.refused(n, &Request::Undo { desk: DESK }, Reason::Length)?;
    }
    long.refused(MOST, &Request::Undo { desk: DESK }, Reason::NoTrailer)
}

/// A small file, and data that make it too long: for the buffer, for a file, and for 32 bits.
pub fn compare_long_data(tally: &mut Tally) -> Result<(), String> {
    let mut buffer = [0; 100];
    put_directory(&mut buffer, &one_block(&[slot(100, 1, 0, 0), slot(FREE, 0, 0, 0)].concat()));
    let n = 40;
    let needed = n + TRAILER_SIZE;
    let mut small = Long { buffer: &mut buffer, tally };
    for (kind, tag, reference) in [(Kind::Add, 40000, 5), (Kind::Replace, 100, 1)] {
        small.refused(n, &edit(kind, tag, reference, MOST - needed), Reason::Room)?;
        for length in [MOST + 1, 1 << 32, (1 << 32) + 90] {
            small.refused(n, &edit(kind, tag, reference, length - needed), Reason::Limit)?;
        }
    }
    Ok(())
}

impl Long<'_> {
    fn shorter(&mut self, capacity: usize) -> Long<'_> {
        Long { buffer: &mut self.buffer[..capacity], tally: self.tally }
    }

    /// An edit that must be granted, and its undo, which another desk asks for first.
    fn granted(&mut self, n: usize, request: &Request) -> Result<(), String> {
        let mut watched = Watched::new(self.buffer, n);
        let Change { place, bytes, appended } = self.expect(n, request).map_err(|refused| format!("{refused:?}"))?;
        let old = self.buffer[place..place + bytes.len()].to_vec();
        let length = n + appended.len();
        watched.put(place, &bytes);
        watched.put(n, &appended);
        self.compare(n, request, Ok(length as u64), &watched)?;
        let refused = Refused::by_desk(length as u64, Form::Long);
        self.compare(length, &Request::Undo { desk: DESK + 1 }, Err(refused), &watched)?;
        watched.put(place, &old);
        self.compare(length, &Request::Undo { desk: DESK }, Ok(n as u64), &watched)?;
        self.buffer[n..length].fill(0);
        Ok(())
    }

    /// A call that must be refused by a rule.
    fn refused(&mut self, n: usize, request: &Request, reason: Reason) -> Result<(), String> {
        let watched = Watched::new(self.buffer, n);
        match self.expect(n, request) {
            Err(refused) if refused.reason == reason => self.compare(n, request, Err(refused), &watched),
            other => Err(format!("{request} with n = {n}: not {reason:?} by the editor, but {:?}", other.err())),
        }
    }

    /// What the editor says of a call. An undo is refused here: a granted one would copy the file.
    fn expect(&self, n: usize, request: &Request) -> Result<Change, Refused> {
        let file = editor::file_in(self.buffer, n as u64)?;
        match request {
            Request::Edit(edit) => editor::change(file, self.buffer.len() as u64, edit, Form::Long),
            Request::Undo { desk } => Err(editor::undo(file, *desk).expect_err("nothing to undo")),
        }
    }

    fn compare(
        &mut self,
        n: usize,
        request: &Request,
        outcome: Result<u64, Refused>,
        watched: &Watched,
    ) -> Result<(), String> {
        let library: EditAnswer = call_library(self.buffer, n as u64, request);
        let same = same_answer(request, library, "editor", expected(outcome));
        same.map_err(|difference| difference.to_string())?;
        self.tally.count(request.call(), library.number);
        if let Err(refused) = outcome {
            self.tally.edits.count_refused(request.call(), &refused);
        }
        match watched.difference(self.buffer) {
            Some(difference) => Err(format!("{:?} {request} with n = {n}: {difference}", request.call())),
            None => Ok(()),
        }
    }
}

impl Watched {
    fn new(buffer: &[u8], n: usize) -> Watched {
        let front = WATCHED.min(buffer.len());
        let back = n.min(buffer.len()).saturating_sub(WATCHED);
        Watched { parts: [(0, buffer[..front].to_vec()), (back, buffer[back..].to_vec())] }
    }

    /// Bytes that a call writes. They may lie in both parts.
    fn put(&mut self, place: usize, bytes: &[u8]) {
        for (start, part) in &mut self.parts {
            if place >= *start && place + bytes.len() <= *start + part.len() {
                part[place - *start..][..bytes.len()].copy_from_slice(bytes);
            }
        }
    }

    fn difference(&self, buffer: &[u8]) -> Option<String> {
        self.parts.iter().find_map(|(start, part)| {
            let difference = first_difference(&buffer[*start..][..part.len()], part)?;
            Some(format!("counted from {start}, {difference}"))
        })
    }
}

fn edit(kind: Kind, tag: u16, reference: u16, size: usize) -> Request {
    Request::Edit(Edit { desk: DESK, kind, tag, reference, data: vec![0; size] })
}

/// Writes the first bytes of a file and its blocks.
fn put_directory(buffer: &mut [u8], blocks: &[u8]) {
    let bytes = [&FIRST_BYTES[..], blocks].concat();
    buffer[..bytes.len()].copy_from_slice(&bytes);
}

fn one_block(slots: &[u8]) -> Vec<u8> {
    [&[0, 2, 0, 0, 0, 0], slots].concat()
}

/// Blocks without slots, one behind the other.
fn empty_blocks(count: usize) -> Vec<u8> {
    let next = |index: usize| if index == count { 0 } else { 4 + 6 * index as u32 };
    (1..=count).flat_map(|index| [[0, 0].to_vec(), next(index).to_be_bytes().to_vec()].concat()).collect()
}
