//! Edits and undo: each call by library, editor and history, and the whole buffer compared after it.

use super::Difference;
use crate::editor::{self, Edit, Form, Kind, Refused, Request, Trailer};
use crate::history::History;
use crate::lent::surround;
use crate::reader::slot_at;
use crate::tally::{Call, Tally};
use hdf4_sys::{self as library, Answer, EditAnswer};
use std::fmt;
use std::hint::black_box;
use std::ops::Range;

/// A buffer lent to the library, the length of the file at its front, and the history beside it.
pub struct Lending {
    memory: Vec<u8>,
    buffer: Range<usize>,
    length: u64,
    history: History,
}

impl Lending {
    /// A buffer with a file at its front and any other bytes behind it.
    pub fn new(file: &[u8], rest: &[u8], shift: usize) -> Lending {
        let (memory, buffer) = surround(&[file, rest].concat(), shift);
        let history = History::new(file, buffer.len());
        Lending { memory, buffer, length: file.len() as u64, history }
    }

    pub fn capacity(&self) -> usize {
        self.buffer.len()
    }

    /// The file in the buffer.
    pub fn file(&self) -> &[u8] {
        &self.buffer()[..self.length as usize]
    }

    pub fn history(&self) -> &History {
        &self.history
    }

    fn buffer(&self) -> &[u8] {
        &self.memory[self.buffer.clone()]
    }

    /// One call on the file in the buffer.
    pub fn call(&mut self, request: &Request, tally: &mut Tally) -> Result<EditAnswer, Difference> {
        let form = editor::carried(self.file());
        let library = self.call_with(self.length, request, tally)?;
        if library.number == 0 {
            self.length = library.length;
        }
        if let (Request::Undo { .. }, Some(form)) = (request, form) {
            tally.edits.count_undo(library.number, self.history.edits() > 0, form);
        }
        let history = self.history.call(request);
        same_answer(request, library, "history", expected(history))?;
        match first_difference(self.file(), self.history.top()) {
            Some(difference) => Err(differ(request, difference, "history", "that of its top file".into())),
            None => Ok(library),
        }
    }

    /// One call by library and editor, with any n. The history does not see it.
    pub fn call_with(&mut self, n: u64, request: &Request, tally: &mut Tally) -> Result<EditAnswer, Difference> {
        let made = editor::call(self.buffer(), n, request);
        let form = editor::file_in(self.buffer(), n).ok().and_then(editor::carried);
        let mut memory = self.memory.clone();
        if let Ok(file) = &made {
            memory[self.buffer.start..][..file.len()].copy_from_slice(file);
        }
        let library = lend(&mut self.memory[self.buffer.clone()], n, request)?;
        let length = made.as_ref().map(|file| file.len() as u64).map_err(|refused| *refused);
        same_answer(request, library, "editor", expected(length))?;
        if let Some(difference) = first_difference(self.buffer(), &memory[self.buffer.clone()]) {
            return Err(differ(request, difference, "editor", "that of its buffer".into()));
        }
        if self.memory != memory {
            return Err(differ(request, "altered bytes around the buffer".into(), "editor", "left them".into()));
        }
        tally.count(request.call(), library.number);
        match made {
            Err(refused) => tally.edits.count_refused(request.call(), &refused),
            Ok(file) => self.count_granted(request.call(), n as usize, form, &file, tally),
        }
        Ok(library)
    }

    /// A granted call on so many bytes, which carried a trailer of this form or none, and the file that it made of them.
    fn count_granted(&self, call: Call, n: usize, form: Option<Form>, made: &[u8], tally: &mut Tally) {
        match call {
            Call::Undo => tally.edits.count_granted(call, form, editor::carried(made)),
            _ => tally.edits.count_granted(call, None, form),
        }
        if self.altered_unstored(n.max(made.len())) {
            tally.count_unstored(call);
        }
    }

    /// Whether the trailer that ends there, left by an edit or used by an undo, has the bytes of a slot whose element is not
    /// stored yet.
    fn altered_unstored(&self, end: usize) -> bool {
        Trailer::of(&self.buffer()[..end]).is_some_and(|trailer| slot_at(&trailer.old, 0).is_unstored())
    }
}

/// Calls the library; it must leave the data as they were.
fn lend(buffer: &mut [u8], n: u64, request: &Request) -> Result<EditAnswer, Difference> {
    let kept = request.data().to_vec();
    let answer = call_library(buffer, n, request);
    if black_box(request.data()) != kept {
        return Err(differ(request, "altered the data".into(), "editor", "left them as they were".into()));
    }
    Ok(answer)
}

pub fn call_library(buffer: &mut [u8], n: u64, request: &Request) -> EditAnswer {
    let Edit { desk, kind, tag, reference, data } = match request {
        Request::Undo { desk } => return library::undo(buffer, n, *desk),
        Request::Edit(edit) => edit,
    };
    match kind {
        Kind::Add => library::add(buffer, n, *desk, *tag, *reference, data),
        Kind::Replace => library::replace(buffer, n, *desk, *tag, *reference, data),
        Kind::Remove => library::remove(buffer, n, *desk, *tag, *reference),
    }
}

/// What the library must answer: the new length, or the refusal.
pub fn expected(outcome: Result<u64, Refused>) -> EditAnswer {
    match outcome {
        Ok(length) => EditAnswer { number: 0, place: 0, length },
        Err(Refused { refusal, .. }) => EditAnswer::refused(refusal.number, refusal.place),
    }
}

pub fn same_answer(
    request: &Request,
    library: EditAnswer,
    judge: &'static str,
    expected: EditAnswer,
) -> Result<(), Difference> {
    if library != expected {
        return Err(differ(request, format!("{library:?}"), judge, format!("{expected:?}")));
    }
    Ok(())
}

pub fn differ(request: &Request, library: String, judge: &'static str, expected: String) -> Difference {
    Difference { call: request.call(), arguments: request.to_string(), library, judge, expected }
}

/// Where the library's bytes first differ from others, in words.
pub fn first_difference(library: &[u8], other: &[u8]) -> Option<String> {
    if library == other {
        return None;
    }
    let place = library.iter().zip(other).position(|(one, other)| one != other);
    Some(match place {
        Some(place) => format!("byte {place} is {:02x}, not {:02x}", library[place], other[place]),
        None => format!("{} bytes, not {}", library.len(), other.len()),
    })
}

impl Request {
    pub fn call(&self) -> Call {
        match self {
            Request::Undo { .. } => Call::Undo,
            Request::Edit(edit) => match edit.kind {
                Kind::Add => Call::Add,
                Kind::Replace => Call::Replace,
                Kind::Remove => Call::Remove,
            },
        }
    }

    pub fn data(&self) -> &[u8] {
        match self {
            Request::Undo { .. } => &[],
            Request::Edit(edit) => &edit.data,
        }
    }
}

/// The arguments of the call.
impl fmt::Display for Request {
    fn fmt(&self, out: &mut fmt::Formatter) -> fmt::Result {
        let edit = match self {
            Request::Undo { desk } => return write!(out, "[desk {desk}]"),
            Request::Edit(edit) => edit,
        };
        write!(out, "[desk {}, {}/{}", edit.desk, edit.tag, edit.reference)?;
        match edit.kind {
            Kind::Remove => write!(out, "]"),
            _ => write!(out, ", {} bytes]", edit.data.len()),
        }
    }
}
