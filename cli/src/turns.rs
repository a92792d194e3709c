//! Edits of one file take turns: by a lock on the file itself (`flock`) or, where it cannot be locked, by a lock file beside it.
//!
//! A lock file is made before the file is opened, its maker alone removes it, and while it is there no other edit begins that takes
//! turns by it.

use crate::input::identity;
use crate::print::tell;
use crate::text::shown;
use std::ffi::{c_int, OsStr};
use std::fs::{self, File, Metadata, OpenOptions, TryLockError};
use std::io::{self, ErrorKind, IsTerminal, Read, Write};
use std::os::unix::ffi::OsStrExt;
use std::os::unix::fs::{MetadataExt, OpenOptionsExt};
use std::path::{Path, PathBuf};
use std::time::{Duration, Instant};
use std::{process, thread};

/// Flags of opening: do not wait for the other end of a pipe, and do not follow a link.
pub const DO_NOT_WAIT: i32 = 0o4000;
pub const DO_NOT_FOLLOW: i32 = 0o400000;

/// How long one lock file may stand before an edit that waits for it gives up.
const PATIENCE: Duration = Duration::from_secs(30);

/// How often an edit that had to wait finds another file in the place of the one that it waited for.
const MOST_TURNS: usize = 10_000;

/// The most bytes of a file's name that the name of its lock file has.
const MOST_OF_A_NAME: usize = 200;

/// A file that is about to change, in this edit's turn: open, and at its path. It is the user's to write.
pub struct Locked {
    pub file: File,
    pub about: Metadata,
    pub path: PathBuf,
    // The last field, so that it goes last.
    lock_file: Option<LockFile>,
}

impl Locked {
    pub fn has_lock_file(&self) -> bool {
        self.lock_file.is_some()
    }

    /// Whether it is this edit's turn still: its lock file is there, if it has one.
    pub fn has_turn(&self) -> bool {
        self.lock_file.as_ref().is_none_or(LockFile::is_there)
    }
}

/// Opens a file to be edited and waits until no other edit has it.
pub fn lock(path: &Path) -> io::Result<Locked> {
    match by_lock(path)? {
        Some(locked) => Ok(locked),
        None => by_lock_file(path, PATIENCE),
    }
}

/// By the lock on the file itself; none where it cannot be locked.
fn by_lock(path: &Path) -> io::Result<Option<Locked>> {
    for _ in 0..MOST_TURNS {
        let file = open(path)?;
        match try_lock(&file) {
            Lock::Ours => {}
            Lock::Useless => return Ok(None),
            Lock::Others => {
                tell_of_waiting(path);
                file.lock()?;
            }
        }
        let about = file.metadata()?;
        // An edit before this one may have put another file in its place.
        if identity(&about) == identity(&fs::metadata(path)?) {
            return Ok(Some(Locked { file, about, path: path.to_path_buf(), lock_file: None }));
        }
    }
    Err(io::Error::other("another program keeps putting another file in its place"))
}

/// By a lock file. The wait for one and the same is limited.
pub fn by_lock_file(path: &Path, patience: Duration) -> io::Result<Locked> {
    let lock_file = LockFile::make(path, patience)?;
    let file = open(path)?;
    let about = file.metadata()?;
    Ok(Locked { file, about, path: path.to_path_buf(), lock_file: Some(lock_file) })
}

/// Opens a file to be written anew: a regular one that the user may write.
fn open(path: &Path) -> io::Result<File> {
    if !fs::metadata(path)?.is_file() {
        return Err(io::Error::new(ErrorKind::InvalidInput, "not a regular file"));
    }
    OpenOptions::new().read(true).write(true).custom_flags(DO_NOT_WAIT).open(path)
}

/// A person at a terminal is told.
fn tell_of_waiting(path: &Path) {
    if io::stderr().is_terminal() {
        tell(format_args!("{}: waiting until another edit is done", shown(path)));
    }
}

/// Who has the lock on a file.
pub enum Lock {
    /// This program.
    Ours,
    Others,
    /// Nobody can tell: locks do not work there.
    Useless,
}

/// Locks an open file, if no other program has it locked.
pub fn try_lock(file: &File) -> Lock {
    match file.try_lock() {
        Ok(()) => Lock::Ours,
        Err(TryLockError::WouldBlock) => Lock::Others,
        Err(TryLockError::Error(_)) => Lock::Useless,
    }
}

/// A file beside the one that is edited, made by this program.
struct LockFile {
    path: PathBuf,
    // None when it is about to be removed.
    file: Option<File>,
    _deferred: Deferred,
}

impl LockFile {
    /// Makes the lock file of a file, once there is none. Where one stands for too long, it is named and left alone.
    fn make(path: &Path, patience: Duration) -> io::Result<LockFile> {
        let lock_file = lock_file_of(path);
        let (mut seen, mut since) = (None, Instant::now());
        for look in 0.. {
            let deferred = Deferred::new();
            match OpenOptions::new().write(true).create_new(true).mode(0o644).open(&lock_file) {
                Err(e) if e.kind() == ErrorKind::AlreadyExists && look > 0 => {}
                Err(e) if e.kind() == ErrorKind::AlreadyExists => tell_of_waiting(path),
                Err(e) => return Err(none_beside(e)),
                Ok(mut file) => {
                    // For people who find it: the name alone keeps others off.
                    let _ = writeln!(file, "process {} on host {}", process::id(), host());
                    return Ok(LockFile { path: lock_file, file: Some(file), _deferred: deferred });
                }
            }
            drop(deferred);
            let now = fs::symlink_metadata(&lock_file).ok().map(|about| (identity(&about), about.mtime(), about.mtime_nsec()));
            if now != seen {
                (seen, since) = (now, Instant::now());
            } else if since.elapsed() > patience {
                return Err(too_long(&lock_file, patience));
            }
            thread::sleep(pause(look));
        }
        unreachable!("some look is the last")
    }

    fn is_there(&self) -> bool {
        self.file.as_ref().is_some_and(|file| is_at(file, &self.path))
    }
}

impl Drop for LockFile {
    fn drop(&mut self) {
        // Closed first: some network folders remove no file that is open.
        if self.is_there() && self.file.take().is_some() {
            if let Err(e) = fs::remove_file(&self.path) {
                tell(format_args!("{}: this lock file is done with, and cannot be removed: {e}", shown(&self.path)));
            }
        }
    }
}

/// The signals by which a person ends a program, deferred as long as this is there: one that ends it would leave a lock file.
struct Deferred {
    /// Those that were deferred before, as the system has them.
    before: Signals,
}

type Signals = [u64; 16];

/// A terminal that is closed, Ctrl-C, and the signal that `kill` sends, as bits.
const ENDING: u64 = 1 << 0 | 1 << 1 | 1 << 14;

const DEFER: c_int = 0;
const SET: c_int = 2;

extern "C" {
    fn sigprocmask(way: c_int, signals: *const Signals, before: *mut Signals) -> c_int;
}

impl Deferred {
    fn new() -> Deferred {
        let (mut ending, mut before) = ([0; 16], [0; 16]);
        ending[0] = ENDING;
        unsafe { sigprocmask(DEFER, &ending, &mut before) };
        Deferred { before }
    }
}

impl Drop for Deferred {
    fn drop(&mut self) {
        unsafe { sigprocmask(SET, &self.before, std::ptr::null_mut()) };
    }
}

/// The lock file of a file has its name, as far as there is room. Long names that begin alike have one, and take turns.
fn lock_file_of(path: &Path) -> PathBuf {
    let name = path.file_name().unwrap_or_default().as_bytes();
    let name = &name[..name.len().min(MOST_OF_A_NAME)];
    path.with_file_name(OsStr::from_bytes(&[b".hdf4-", name, b".lock"].concat()))
}

/// How long to sleep before the next look: longer from look to look, and not in step with other programs.
fn pause(look: u32) -> Duration {
    Duration::from_millis((5 << look.min(3)) + u64::from(process::id() % 10))
}

/// The name of this machine.
fn host() -> String {
    let name = fs::read_to_string("/proc/sys/kernel/hostname");
    name.map_or("unknown".to_string(), |name| name.trim().to_string())
}

fn too_long(lock_file: &Path, patience: Duration) -> io::Error {
    let maker = maker_of(lock_file).unwrap_or("an unknown process".to_string());
    let stands = format!("its lock file {} was made by {maker}", shown(lock_file));
    let seconds = patience.as_secs();
    io::Error::other(format!("{stands} and has been there for {seconds} seconds; it may be removed if no edit runs"))
}

/// Who made a lock file, as its first line says.
fn maker_of(lock_file: &Path) -> Option<String> {
    let file = OpenOptions::new().read(true).custom_flags(DO_NOT_WAIT | DO_NOT_FOLLOW).open(lock_file).ok()?;
    let mut line = Vec::new();
    file.take(200).read_to_end(&mut line).ok()?;
    let line = line.split(|byte| *byte == b'\n').next().filter(|line| !line.is_empty())?;
    Some(shown(OsStr::from_bytes(line)))
}

pub fn none_beside(e: io::Error) -> io::Error {
    io::Error::new(e.kind(), format!("no file can be made beside it: {e}"))
}

/// Whether a path names an open file.
pub fn is_at(file: &File, path: &Path) -> bool {
    let about = file.metadata().and_then(|open| Ok((open, fs::symlink_metadata(path)?)));
    about.is_ok_and(|(open, named)| identity(&open) == identity(&named))
}

#[cfg(test)]
pub mod tests {
    use super::*;

    /// The patience of tests.
    pub const SHORT: Duration = Duration::from_millis(50);

    /// A file in a folder of its own.
    pub fn file(test: &str) -> PathBuf {
        let folder = std::env::temp_dir().join(format!("hdf4-turns-{}-{test}", process::id()));
        fs::create_dir(&folder).unwrap();
        let path = folder.join("file");
        fs::write(&path, b"0").unwrap();
        path
    }

    pub fn end(path: &Path) {
        fs::remove_dir_all(path.parent().unwrap()).unwrap();
    }

    /// What is in the folder of a file.
    pub fn names(path: &Path) -> Vec<String> {
        let entries = fs::read_dir(path.parent().unwrap()).unwrap();
        let mut names: Vec<String> = entries.map(|entry| entry.unwrap().file_name().into_string().unwrap()).collect();
        names.sort();
        names
    }

    #[test]
    fn a_lock_file_says_whose_it_is_and_goes_with_the_turn() {
        let path = file("whose");
        let locked = by_lock_file(&path, PATIENCE).unwrap();
        assert!(locked.has_lock_file() && locked.has_turn());
        assert_eq!(names(&path), [".hdf4-file.lock", "file"]);
        let line = fs::read_to_string(path.with_file_name(".hdf4-file.lock")).unwrap();
        assert!(line.starts_with(&format!("process {} on host ", process::id())) && line.ends_with('\n'), "{line}");
        drop(locked);
        assert_eq!(names(&path), ["file"]);
        end(&path);
    }

    #[test]
    fn a_lock_file_that_stands_too_long_is_named_and_left_alone() {
        for (test, line, maker) in [
            ("named", "process 4711 on host depot7\nmore", "process 4711 on host depot7"),
            ("nameless", "", "an unknown process"),
            ("escaped", "\x1b[2J\n", "\\u{1b}[2J"),
        ] {
            let path = file(test);
            let lock_file = path.with_file_name(".hdf4-file.lock");
            fs::write(&lock_file, line).unwrap();
            let Err(e) = by_lock_file(&path, SHORT) else { panic!("it has not waited") };
            let expected = format!("its lock file {} was made by {maker} and has been there for 0 seconds; ", shown(&lock_file));
            assert_eq!(e.to_string(), expected + "it may be removed if no edit runs");
            assert_eq!(fs::read_to_string(&lock_file).unwrap(), line);
            end(&path);
        }
    }

    #[test]
    fn lock_files_of_one_edit_after_the_other_are_waited_for() {
        let path = file("others");
        let lock_file = path.with_file_name(".hdf4-file.lock");
        fs::write(&lock_file, "").unwrap();
        let patience = Duration::from_millis(1500);
        let others = thread::spawn({
            let (next, lock_file) = (path.with_file_name("next"), lock_file.clone());
            move || {
                let begun = Instant::now();
                while begun.elapsed() < 2 * patience {
                    thread::sleep(SHORT / 2);
                    fs::write(&next, "").unwrap();
                    fs::rename(&next, &lock_file).unwrap();
                }
                fs::remove_file(&lock_file).unwrap();
            }
        });
        assert!(by_lock_file(&path, patience).unwrap().has_turn());
        others.join().unwrap();
        assert_eq!(names(&path), ["file"]);
        end(&path);
    }

    #[test]
    fn the_lock_file_of_another_edit_is_not_removed() {
        let path = file("stolen");
        let lock_file = path.with_file_name(".hdf4-file.lock");
        let locked = by_lock_file(&path, PATIENCE).unwrap();
        fs::remove_file(&lock_file).unwrap();
        assert!(!locked.has_turn());
        fs::write(&lock_file, "another").unwrap();
        assert!(!locked.has_turn());
        drop(locked);
        assert_eq!(fs::read(&lock_file).unwrap(), b"another");
        end(&path);
    }

    #[test]
    fn a_file_with_the_longest_name_has_a_lock_file() {
        let path = file("long");
        let long = path.with_file_name("x".repeat(255));
        fs::rename(&path, &long).unwrap();
        assert!(by_lock_file(&long, PATIENCE).unwrap().has_turn());
        assert_eq!(names(&long), ["x".repeat(255)]);
        end(&path);
    }
}
