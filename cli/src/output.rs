//! Where the bytes of a command go: standard output, or a file.

use crate::fault::Fault;
use crate::input::{self, identity, Input};
use crate::print::{to_a_terminal, Print};
use crate::progress::Progress;
use crate::store::{self, Written};
use crate::text::shown;
use std::borrow::Cow;
use std::ffi::OsStr;
use std::fmt::Arguments;
use std::fs::{self, File, OpenOptions};
use std::io::{self, ErrorKind, Write};
use std::os::fd::BorrowedFd;
use std::path::Path;

/// Names of standard output.
const PRINTED: [&str; 4] = ["-", "/dev/stdout", "/dev/fd/1", "/proc/self/fd/1"];

/// More bytes than a piece of a line has.
const PIECE: usize = 128;

/// Lines on their way: printed as they come, or kept in memory for a file, with the name that messages have.
pub enum Lines<'a> {
    Printed(&'a mut Print),
    Kept(&'a str, &'a mut Vec<u8>),
}

impl Lines<'_> {
    /// How far the lines are.
    pub fn progress(&self, what: &str, total: usize) -> Progress {
        match self {
            Lines::Printed(_) => Progress::of_printing(what, total),
            Lines::Kept(..) => Progress::new(what, Some(total)),
        }
    }

    /// A piece of a line, and no more.
    pub fn text(&mut self, text: Arguments) -> Result<(), Fault> {
        match self {
            Lines::Printed(print) => print.text(text),
            Lines::Kept(name, bytes) => {
                if bytes.capacity() - bytes.len() < PIECE {
                    input::reserve(name, bytes, bytes.len().max(1 << 16))?;
                }
                bytes.write_fmt(text).map_err(Fault::Unprinted)
            }
        }
    }
}

/// Writes lines that are made of a file.
pub fn put_lines<F>(out: Option<&OsStr>, source: &Input, print: &mut Print, write: F) -> Result<(), Fault>
where
    F: FnOnce(&mut Lines) -> Result<(), Fault>,
{
    if out.is_none_or(is_printed) {
        return write(&mut Lines::Printed(print));
    }
    let mut bytes = Vec::new();
    write(&mut Lines::Kept(&source.name, &mut bytes))?;
    put(out, source, &bytes, print)
}

fn is_printed(out: &OsStr) -> bool {
    PRINTED.iter().any(|name| out == *name)
}

/// Writes bytes that were made of a file. To a file it says how many there are; to a terminal they go if they are text, or if
/// they were asked for by `-`.
pub fn put(out: Option<&OsStr>, source: &Input, bytes: &[u8], print: &mut Print) -> Result<(), Fault> {
    let Some(out) = out else {
        if to_a_terminal() && !is_text(bytes) {
            let instead = "name a file for them, or - to have them all the same";
            return Err(Fault::Use(format!("{} bytes that are no text would go to the terminal; {instead}", bytes.len())));
        }
        return print.bytes(bytes);
    };
    if is_printed(out) {
        return print.bytes(bytes);
    }
    let path = Path::new(out);
    let warnings = put_to(path, source, bytes)?;
    store::report(&shown(out), &Written { length: bytes.len(), warnings }, print);
    Ok(())
}

/// Writes a file, new or old, or what is no file, as a pipe and a device. Gives warnings.
fn put_to(path: &Path, source: &Input, bytes: &[u8]) -> Result<Vec<String>, Fault> {
    let told = |e: io::Error| Fault::system(shown(path), e);
    let open = opened_before(path);
    match open.as_ref().map_or_else(|| fs::metadata(path), File::metadata) {
        Err(e) if e.kind() == ErrorKind::NotFound && fs::symlink_metadata(path).is_err() => {
            store::create(path, bytes).map_err(told)
        }
        Err(e) => Err(told(e)),
        Ok(about) if source.identity == Some(identity(&about)) => {
            Err(Fault::Use(format!("{}: this is the file that is read, and it is left alone", shown(path))))
        }
        Ok(about) if about.is_file() && open.is_none() => Ok(store::rewrite(path, |_| Ok(Cow::Borrowed(bytes)))?.warnings),
        Ok(_) => {
            let file = open.map_or_else(|| OpenOptions::new().write(true).open(path), Ok);
            file.and_then(|mut file| file.write_all(bytes)).map_err(told)?;
            Ok(Vec::new())
        }
    }
}

/// What the program was started with under a number, as the shell's `3>FILE` gives it: it is written to where it stands.
fn opened_before(path: &Path) -> Option<File> {
    let path = if path == Path::new("/dev/stderr") { Path::new("/dev/fd/2") } else { path };
    let number = path.strip_prefix("/dev/fd").or_else(|_| path.strip_prefix("/proc/self/fd")).ok()?;
    let number = number.to_str()?.parse().ok().filter(|number| *number >= 0)?;
    let open = unsafe { BorrowedFd::borrow_raw(number) };
    open.try_clone_to_owned().ok().map(File::from)
}

/// Whether a terminal shows bytes as they are: text of letters, marks, spaces and line ends.
fn is_text(bytes: &[u8]) -> bool {
    let printable = |letter: char| !letter.is_control() || letter == '\n' || letter == '\t';
    std::str::from_utf8(bytes).is_ok_and(|text| text.chars().all(printable))
}
