//! The bytes of files and of standard input. A file that is too long for the library is told by its size, and memory that cannot
//! be had is a message.

use crate::fault::Fault;
use crate::progress::Progress;
use crate::text::shown;
use crate::words::Pair;
use hdf4::{Error, Rule, MOST_BYTES};
use std::ffi::OsStr;
use std::fs::{File, Metadata};
use std::hint::black_box;
use std::io::{self, Read};
use std::os::fd::AsFd;
use std::os::unix::fs::MetadataExt;

/// How many bytes are read at a time.
const PART: u64 = 1 << 24;

/// More bytes than a command needs beside what it reserves.
const SPARE: usize = 1 << 22;

/// A file that was read, or standard input.
pub struct Input {
    /// As messages name it.
    pub name: String,
    pub bytes: Vec<u8>,
    /// Device and number of the file, where it is one.
    pub identity: Option<(u64, u64)>,
}

impl Input {
    pub fn refused(&self, refusal: impl std::fmt::Display) -> Fault {
        Fault::refused(&self.name, refusal)
    }

    /// Where the slot of an element is; 0 where it has none.
    pub fn place_of(&self, (tag, reference): Pair) -> u64 {
        hdf4::find(&self.bytes, tag, reference).map_or(0, |place| place as u64)
    }
}

/// Which file this is, whatever its names are.
pub fn identity(about: &Metadata) -> (u64, u64) {
    (about.dev(), about.ino())
}

/// Reads a file, or standard input for `-`.
pub fn read(word: &OsStr) -> Result<Input, Fault> {
    if word == "-" {
        let name = "standard input".to_string();
        let identity = file_of(io::stdin());
        apart(&name, identity)?;
        let bytes = all(&name, io::stdin().lock(), None, 0)?;
        return Ok(Input { name, bytes, identity });
    }
    let name = shown(word);
    let file = File::open(word).map_err(|e| Fault::system(&name, e))?;
    let about = file.metadata().map_err(|e| Fault::system(&name, e))?;
    let identity = Some(identity(&about));
    apart(&name, identity)?;
    let bytes = of_file(&name, &file, &about, 0)?;
    Ok(Input { name, bytes, identity })
}

/// Sees to it that what is printed does not go to the file that is read.
fn apart(name: &str, read: Option<(u64, u64)>) -> Result<(), Fault> {
    if read.is_some() && read == file_of(io::stdout()) {
        return Err(Fault::Use(format!("{name}: this is the file that is read, and standard output would go to it")));
    }
    Ok(())
}

/// Which file an open stream is, if it is one.
fn file_of(stream: impl AsFd) -> Option<(u64, u64)> {
    let open = stream.as_fd().try_clone_to_owned().ok()?;
    File::from(open).metadata().ok().filter(Metadata::is_file).map(|about| identity(&about))
}

/// The bytes of an open file, and room behind them that takes no second copy.
pub fn of_file(name: &str, file: &File, about: &Metadata, room: usize) -> Result<Vec<u8>, Fault> {
    let length = about.is_file().then_some(about.len());
    all(name, file, length, room)
}

/// All bytes to the end; of more than the library takes, no more than shows it.
fn all(name: &str, mut source: impl Read, length: Option<u64>, room: usize) -> Result<Vec<u8>, Fault> {
    if length.is_some_and(|length| length > MOST_BYTES as u64) {
        return Err(Fault::refused(name, Error { rule: Rule::TooLong, place: 0 }));
    }
    let length = length.map(|length| length as usize);
    let mut bytes = Vec::new();
    reserve(name, &mut bytes, length.unwrap_or(0) + room)?;
    let mut progress = Progress::new(&format!("reading {name}"), length);
    while bytes.len() <= MOST_BYTES {
        if length.is_none() {
            bytes.try_reserve(PART as usize).map_err(|_| no_memory(name))?;
        }
        let part = source.by_ref().take(PART).read_to_end(&mut bytes).map_err(|e| Fault::system(name, e))?;
        if part == 0 {
            break;
        }
        progress.at(bytes.len());
    }
    spare(name)?;
    Ok(bytes)
}

/// Sees to it that there is memory for what is small.
pub fn spare(name: &str) -> Result<(), Fault> {
    let mut spare = Vec::<u8>::new();
    spare.try_reserve_exact(SPARE).map_err(|_| no_memory(name))?;
    // Else a compiler may see that it is not used, and not ask for it.
    black_box(spare);
    Ok(())
}

pub fn no_memory(name: &str) -> Fault {
    Fault::system(name, "there is no memory for all of it")
}

/// Makes room for more bytes, if there is memory.
pub fn reserve<T>(name: &str, bytes: &mut Vec<T>, more: usize) -> Result<(), Fault> {
    let told = |_| Fault::system(name, format_args!("there is no memory for {more} bytes"));
    bytes.try_reserve_exact(more).map_err(told)
}
