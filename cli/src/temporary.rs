//! Temporary files beside the file that they will replace.
//!
//! A file is locked as long as its program runs, so one that can be locked was left by a killed program, and the next edit in the
//! folder removes it; where locks do not work, once it is an hour old. By an exchange of names the file of another program may
//! come to stand under a temporary name. So that such a one is never removed, the name says which files it is for:
//! `.hdf4-NEW-OLD-TIME.tmp` with the numbers that the file system gave the new file and the one to be replaced, and when that one
//! was written. Before its own number is known a file is `.hdf4-PROGRAM-COUNT.new`, and empty.

use crate::turns::{self, is_at, Lock, DO_NOT_FOLLOW, DO_NOT_WAIT};
use std::fs::{self, File, Metadata, OpenOptions};
use std::io::{self, ErrorKind};
use std::os::unix::ffi::OsStrExt;
use std::os::unix::fs::{MetadataExt, OpenOptionsExt};
use std::path::{Path, PathBuf};
use std::process;
use std::time::Duration;

/// How old a file is that no program is at any more, where locks cannot tell.
const OLD: Duration = Duration::from_secs(60 * 60);

/// The files that may have a temporary name: the new one, and the old one as it was when it was read.
#[derive(Clone, Copy, PartialEq, Debug)]
struct Files {
    new: u64,
    old: u64,
    old_time: u64,
}

impl Files {
    fn of(new: &Metadata, old: Option<&Metadata>) -> Files {
        Files { new: new.ino(), old: old.map_or(0, Metadata::ino), old_time: old.map_or(0, time) }
    }

    fn name(&self) -> String {
        format!(".hdf4-{}-{}-{}.tmp", self.new, self.old, self.old_time)
    }

    /// Whether a file is one of the two.
    fn has(&self, about: &Metadata) -> bool {
        about.is_file() && (about.ino() == self.new || (about.ino() == self.old && time(about) == self.old_time))
    }
}

/// When a file was written, in nanoseconds as far as they fit.
fn time(about: &Metadata) -> u64 {
    about.mtime().wrapping_mul(1_000_000_000).wrapping_add(about.mtime_nsec()) as u64
}

/// A file of this program's own, locked where locks work, and removed where it does not take another name.
pub struct Temporary {
    pub file: File,
    pub path: PathBuf,
    files: Files,
}

impl Temporary {
    /// A new file beside another, and the one there that it is to replace.
    pub fn beside(path: &Path, mode: u32, old: Option<&Metadata>) -> io::Result<Temporary> {
        for count in 0.. {
            let first = folder_of(path).join(format!(".hdf4-{}-{count}.new", process::id()));
            let file = match OpenOptions::new().read(true).write(true).create_new(true).mode(mode).open(&first) {
                Err(e) if e.kind() == ErrorKind::AlreadyExists => continue,
                file => file.map_err(turns::none_beside)?,
            };
            if matches!(turns::try_lock(&file), Lock::Others) || !is_at(&file, &first) {
                // Another program that cleans up was in between.
                continue;
            }
            let files = Files::of(&file.metadata()?, old);
            let path = folder_of(path).join(files.name());
            if fs::symlink_metadata(&path).is_ok() {
                let _ = fs::remove_file(&first);
                continue;
            }
            fs::rename(&first, &path).map_err(turns::none_beside)?;
            return Ok(Temporary { file, path, files });
        }
        unreachable!("some name is free")
    }

    /// Takes a name, and the place of a file that has it.
    pub fn take_name(&self, path: &Path) -> io::Result<()> {
        // A network may lose the answer to what was done.
        fs::rename(&self.path, path).or_else(|e| if is_at(&self.file, path) { Ok(()) } else { Err(e) })
    }
}

impl Drop for Temporary {
    fn drop(&mut self) {
        if fs::symlink_metadata(&self.path).is_ok_and(|about| self.files.has(&about)) {
            // If it stays, the next edit removes it.
            let _ = fs::remove_file(&self.path);
        }
    }
}

/// Removes the temporary files of killed programs from a folder, as far as the user may.
pub fn remove_left_over(folder: &Path) {
    remove(folder, |file| matches!(turns::try_lock(file), Lock::Ours));
}

/// The same where files cannot be locked: those that are old.
pub fn remove_old(folder: &Path) {
    remove(folder, |file| match turns::try_lock(file) {
        Lock::Ours => true,
        Lock::Others => false,
        Lock::Useless => is_old(file),
    });
}

/// Removes temporary files that no program is at.
fn remove(folder: &Path, is_free: impl Fn(&File) -> bool) {
    let Ok(entries) = fs::read_dir(folder) else { return };
    for entry in entries.flatten() {
        let name = entry.file_name();
        let Some(is_left) = left_over(name.as_bytes()) else { continue };
        let path = entry.path();
        if !fs::symlink_metadata(&path).is_ok_and(|about| is_left(&about)) {
            continue;
        }
        let Ok(file) = OpenOptions::new().read(true).custom_flags(DO_NOT_WAIT | DO_NOT_FOLLOW).open(&path) else { continue };
        if is_free(&file) && is_at(&file, &path) && file.metadata().is_ok_and(|about| is_left(&about)) {
            let _ = fs::remove_file(&path);
        }
    }
}

fn is_old(file: &File) -> bool {
    let written = file.metadata().and_then(|about| about.modified());
    written.is_ok_and(|written| written.elapsed().is_ok_and(|age| age > OLD))
}

type IsLeft = Box<dyn Fn(&Metadata) -> bool>;

/// Which files are a killed program's, if they have a certain name.
fn left_over(name: &[u8]) -> Option<IsLeft> {
    let rest = name.strip_prefix(b".hdf4-")?;
    if let Some(numbers) = rest.strip_suffix(b".new") {
        numbers_of::<2>(numbers)?;
        return Some(Box::new(|about| about.is_file() && about.len() == 0));
    }
    let [new, old, old_time] = numbers_of(rest.strip_suffix(b".tmp")?)?;
    let files = Files { new, old, old_time };
    Some(Box::new(move |about| files.has(about)))
}

/// So many numbers, with a hyphen between two.
fn numbers_of<const N: usize>(text: &[u8]) -> Option<[u64; N]> {
    let numbers = std::str::from_utf8(text).ok()?.split('-').map(|digits| digits.parse().ok());
    numbers.collect::<Option<Vec<u64>>>()?.try_into().ok()
}

pub fn folder_of(path: &Path) -> &Path {
    match path.parent() {
        Some(folder) if folder.as_os_str().is_empty() => Path::new("."),
        Some(folder) => folder,
        None => Path::new("/"),
    }
}

#[cfg(test)]
mod tests {
    use super::*;

    #[test]
    fn names_say_which_files_they_are_for() {
        for (name, is_one) in [
            (".hdf4-1-0.new", true),
            (".hdf4-12-34-56.tmp", true),
            (".hdf4-12-0-0.tmp", true),
            (".hdf4-1.new", false),
            (".hdf4-1-.new", false),
            (".hdf4-a-0.new", false),
            (".hdf4-1-0.tmp", false),
            (".hdf4-1-2-3-4.tmp", false),
            ("hdf4-1-2-3.tmp", false),
            (".hdf4-1-2-3.tmp2", false),
        ] {
            assert_eq!(left_over(name.as_bytes()).is_some(), is_one, "{name}");
        }
        let files = Files { new: 12, old: 34, old_time: 56 };
        assert_eq!(numbers_of(b"12-34-56"), Some([12, 34, 56]));
        assert_eq!(files.name(), ".hdf4-12-34-56.tmp");
    }
}
