//! The commands that edit: a file is locked, read, edited in memory and written back.

use crate::fault::Fault;
use crate::print::Print;
use crate::text::shown;
use crate::words::{Given, Pair, Words};
use crate::{desk, input, miscounted, store};
use hdf4::{Error, Rule, MOST_BYTES};
use std::borrow::Cow;
use std::ffi::OsStr;
use std::fmt::Display;
use std::path::Path;

/// What an edit in memory gives: how long the file is then, and a note on what was taken for the element.
type Done = (usize, Option<String>);

/// Adds an element with the bytes of a data file.
pub fn add(words: &Words, print: &mut Print) -> Result<(), Fault> {
    let &[path, tag, reference, data] = &words.all()[..] else { return Err(miscounted("add")) };
    let (tag, reference) = Given::new(tag, reference)?.first();
    if reference == 0 && !words.has("--allow-zero") {
        let why = "other HDF4 programs cannot list a file that has it; --allow-zero adds it all the same";
        return Err(Fault::Use(format!("reference 0: {why}")));
    }
    let desk = desk::named(words)?;
    let data = input::read(data)?.bytes;
    edit(path, data.len() + hdf4::EDIT_ROOM, print, |buffer, length| {
        let added = hdf4::add(buffer, length, desk, tag, reference, &data);
        added.map(|length| (length, None)).map_err(|e| not_added(e, &buffer[..length], (tag, reference)))
    })
}

/// Why an element is not added. Where one is there that is not stored yet, it is said how to store it.
fn not_added(e: Error, image: &[u8], (tag, reference): Pair) -> String {
    let is_unstored = || matches!(hdf4::view(image, tag, reference), Err(Error { rule: Rule::NotStored, .. }));
    let way = if e.rule == Rule::Present && is_unstored() { "; it is not stored yet, and hdf4 replace stores it" } else { "" };
    format!("{e}{way}")
}

/// Gives an element the bytes of a data file.
pub fn replace(words: &Words, print: &mut Print) -> Result<(), Fault> {
    let &[path, tag, reference, data] = &words.all()[..] else { return Err(miscounted("replace")) };
    let given = Given::new(tag, reference)?;
    let desk = desk::named(words)?;
    let data = input::read(data)?.bytes;
    edit(path, data.len() + hdf4::EDIT_ROOM, print, |buffer, length| {
        let ((tag, reference), note) = given.in_image(&buffer[..length]);
        hdf4::replace(buffer, length, desk, tag, reference, &data).map(|length| (length, note))
    })
}

pub fn remove(words: &Words, print: &mut Print) -> Result<(), Fault> {
    let &[path, tag, reference] = &words.all()[..] else { return Err(miscounted("remove")) };
    let given = Given::new(tag, reference)?;
    let desk = desk::named(words)?;
    edit(path, hdf4::EDIT_ROOM, print, |buffer, length| {
        let ((tag, reference), note) = given.in_image(&buffer[..length]);
        hdf4::remove(buffer, length, desk, tag, reference).map(|length| (length, note))
    })
}

pub fn undo(words: &Words, print: &mut Print) -> Result<(), Fault> {
    let &[path] = &words.all()[..] else { return Err(miscounted("undo")) };
    let desk = desk::named(words)?;
    edit(path, 0, print, |buffer, length| {
        let undone = hdf4::undo(buffer, length, desk);
        undone.map(|length| (length, None)).map_err(|e| desk::not_undone(e, &buffer[..length], desk))
    })
}

/// Edits a file in a buffer with room to grow and writes it back. Says how long it is then.
fn edit<F, E: Display>(path: &OsStr, room: usize, print: &mut Print, call: F) -> Result<(), Fault>
where
    F: Fn(&mut [u8], usize) -> Result<Done, E>,
{
    if path == "-" {
        return Err(Fault::Use("-: an edit needs a file".to_string()));
    }
    let path = Path::new(path);
    let name = shown(path);
    let mut noted = None;
    let mut written = store::rewrite(path, |locked| {
        // A file is never longer than the limit, so room behind it is not needed.
        let room = room.min(MOST_BYTES.saturating_sub(locked.about.len() as usize));
        let mut buffer = input::of_file(&name, &locked.file, &locked.about, room)?;
        let length = buffer.len();
        buffer.resize(length + room, 0);
        let (length, note) = call(&mut buffer, length).map_err(|e| Fault::refused(&name, e))?;
        buffer.truncate(length);
        noted = note;
        Ok(Cow::Owned(buffer))
    })?;
    written.warnings.splice(..0, noted);
    store::report(&name, &written, print);
    Ok(())
}
