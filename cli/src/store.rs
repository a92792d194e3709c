//! Writes a file anew so that nothing is lost: edits of one file take turns, a crash leaves the old file or the new one, and what
//! another program has done to the file meanwhile is never overwritten.
//!
//! An edit has its turn at the file, and the file must be the one that its path names. The new bytes go to a temporary file beside
//! it and to the disk; then the two exchange their names, if the old one is still as it was read, and the old one is removed.

use crate::attributes;
use crate::fault::Fault;
use crate::input::identity;
use crate::print::{tell, Print};
use crate::progress::Progress;
use crate::temporary::{folder_of, remove_left_over, remove_old, Temporary};
use crate::text::shown;
use crate::turns::{is_at, lock, Locked};
use std::borrow::Cow;
use std::ffi::{c_char, c_int, c_uint, CString};
use std::fs::{self, File, Metadata};
use std::io::{self, ErrorKind, Write};
use std::os::unix::ffi::OsStrExt;
use std::os::unix::fs::MetadataExt;
use std::path::Path;

/// How many bytes are written at a time.
const PART: usize = 1 << 24;

/// How often a file is edited anew that another program keeps changing.
const MOST_TRIES: usize = 20;

/// What became of a file that was written: it has changed, whatever the warnings say.
pub struct Written {
    pub length: usize,
    pub warnings: Vec<String>,
}

/// Says how long a file is now. It has changed, whatever becomes of that line.
pub fn report(name: &str, written: &Written, print: &mut Print) {
    let said = print.report(&format!("{name}: {} bytes\n", written.length));
    let unsaid = said.err().map(|e| format!("it has changed, to {} bytes; standard output: {e}", written.length));
    written.warnings.iter().chain(&unsaid).for_each(|warning| tell(format_args!("{name}: {warning}")));
}

/// Gives a file the bytes that are made of it. A symbolic link to it stays one. Where another program changes the file
/// meanwhile they are made anew.
pub fn rewrite<'a, F>(path: &Path, mut make: F) -> Result<Written, Fault>
where
    F: FnMut(&Locked) -> Result<Cow<'a, [u8]>, Fault>,
{
    let told = |e: io::Error| Fault::system(shown(path), e);
    for _ in 0..MOST_TRIES {
        let locked = lock(&fs::canonicalize(path).map_err(told)?).map_err(told)?;
        let remove = if locked.has_lock_file() { remove_old } else { remove_left_over };
        remove(folder_of(&locked.path));
        alone(&locked.about).map_err(told)?;
        let bytes = make(&locked)?;
        let done = put_in_place(&locked, &bytes).map_err(told)?;
        if let Some(warnings) = done {
            return Ok(Written { length: bytes.len(), warnings });
        }
    }
    Err(Fault::system(shown(path), "another program keeps changing it, so it was left alone"))
}

/// Writes a file that does not exist yet. Gives warnings.
pub fn create(path: &Path, bytes: &[u8]) -> io::Result<Vec<String>> {
    let name = path.file_name().ok_or(io::Error::new(ErrorKind::InvalidInput, "not the name of a file"))?;
    let path = fs::canonicalize(folder_of(path))?.join(name);
    remove_left_over(folder_of(&path));
    let mut temporary = Temporary::beside(&path, 0o666, None)?;
    write(&mut temporary.file, &path, bytes)?;
    temporary.file.sync_all()?;
    temporary.take_name(&path).map_err(unnamed)?;
    Ok(unsynced(folder_of(&path)))
}

/// Sees to it that the names in a folder are on the disk. If that fails the file has changed all the same.
fn unsynced(folder: &Path) -> Vec<String> {
    let synced = File::open(folder).and_then(|folder| folder.sync_all());
    let told = |e: io::Error| format!("it has changed, but a power cut may bring back what was there before: {e}");
    synced.err().map(told).into_iter().collect()
}

/// A file with several names would keep its old bytes under the others.
fn alone(about: &Metadata) -> io::Result<()> {
    match about.nlink() {
        0 | 1 => Ok(()),
        names => {
            Err(io::Error::other(format!("it has {names} names (hard links) and would change under one of them: edit a copy")))
        }
    }
}

/// Puts new bytes in the place of a file, if it is this edit's turn still: none where another program has changed it, else warnings.
fn put_in_place(old: &Locked, bytes: &[u8]) -> io::Result<Option<Vec<String>>> {
    let mut new = Temporary::beside(&old.path, 0o600, Some(&old.about))?;
    write(&mut new.file, &old.path, bytes)?;
    let unkept = attributes::keep(&old.file, &old.about, &new.file)?;
    new.file.sync_all()?;
    if !stands(old)? || !old.has_turn() || !is_at(&new.file, &new.path) || !swap(old, new)? {
        return Ok(None);
    }
    Ok(Some(unkept.into_iter().chain(unsynced(folder_of(&old.path))).collect()))
}

fn write(file: &mut File, path: &Path, bytes: &[u8]) -> io::Result<()> {
    let mut progress = Progress::new(&format!("writing {}", shown(path)), Some(bytes.len()));
    for (index, part) in bytes.chunks(PART).enumerate() {
        progress.at(index * PART);
        file.write_all(part)?;
    }
    Ok(())
}

/// Gives a new file the name of the old one, which goes. Says whether it did: another program may have been faster.
fn swap(old: &Locked, new: Temporary) -> io::Result<bool> {
    match exchange(&new.path, &old.path) {
        Err(e) if is_unsupported(&e) => new.take_name(&old.path).map_err(unnamed)?,
        Err(e) => return Err(unnamed(e)),
        Ok(()) if is_replaced(old, &new) => {}
        Ok(()) => {
            put_back(&new, &old.path).map_err(|e| {
                io::Error::other(format!("another program was faster, and its file is {} now: {e}", shown(&new.path)))
            })?;
            return Ok(false);
        }
    }
    Ok(true)
}

/// Whether it is the old file that an exchange has given the temporary name, with which it is removed. Another edit may have done
/// that already, and removes no other.
fn is_replaced(old: &Locked, new: &Temporary) -> bool {
    match fs::symlink_metadata(&new.path) {
        Err(e) => e.kind() == ErrorKind::NotFound,
        Ok(displaced) => same_bytes(&old.about, &displaced),
    }
}

fn unnamed(e: io::Error) -> io::Error {
    io::Error::new(e.kind(), format!("the new file cannot take its name: {e}"))
}

/// Gives the name back to the file of another program, which an exchange has put in the place of the temporary one. Others may
/// take the name meanwhile: the last one keeps it.
fn put_back(new: &Temporary, path: &Path) -> io::Result<()> {
    let now = || fs::symlink_metadata(&new.path).map(|about| identity(&about));
    let (mut given, mut kept) = (identity(&new.file.metadata()?), now()?);
    loop {
        exchange(&new.path, path)?;
        let displaced = now()?;
        if displaced == given {
            // The new file, or one whose place another has taken.
            return fs::remove_file(&new.path);
        }
        (given, kept) = (kept, displaced);
    }
}

/// Whether the path still names the locked file, and nothing has changed it.
fn stands(old: &Locked) -> io::Result<bool> {
    let now = match fs::symlink_metadata(&old.path) {
        Err(e) if e.kind() == ErrorKind::NotFound => return Err(io::Error::new(e.kind(), "another program has removed it")),
        now => now?,
    };
    Ok(same_bytes(&old.about, &now) && (now.ctime(), now.ctime_nsec()) == (old.about.ctime(), old.about.ctime_nsec()))
}

fn same_bytes(before: &Metadata, now: &Metadata) -> bool {
    let seen = |about: &Metadata| (identity(about), about.len(), about.mtime(), about.mtime_nsec(), about.nlink());
    seen(before) == seen(now)
}

const HERE: c_int = -100;
const EXCHANGE: c_uint = 2;

extern "C" {
    fn renameat2(from_folder: c_int, from: *const c_char, to_folder: c_int, to: *const c_char, flags: c_uint) -> c_int;
}

/// Two files of one folder exchange their names in one step.
fn exchange(one: &Path, other: &Path) -> io::Result<()> {
    let [one, other] = [one, other].map(|path| CString::new(path.as_os_str().as_bytes()));
    let (one, other) = (one?, other?);
    match unsafe { renameat2(HERE, one.as_ptr(), HERE, other.as_ptr(), EXCHANGE) } {
        0 => Ok(()),
        _ => Err(io::Error::last_os_error()),
    }
}

/// Whether a file system has no such call. Then a plain rename has to do.
fn is_unsupported(e: &io::Error) -> bool {
    matches!(e.kind(), ErrorKind::Unsupported | ErrorKind::InvalidInput)
}

#[cfg(test)]
mod tests {
    use super::*;
    use crate::turns::by_lock_file;
    use crate::turns::tests::{end, file, names, SHORT};
    use std::thread;
    use std::time::Duration;

    fn bytes_in(locked: &Locked) -> Vec<u8> {
        let mut bytes = Vec::new();
        io::Read::read_to_end(&mut &locked.file, &mut bytes).unwrap();
        bytes
    }

    /// A file of another program takes the name.
    fn take_the_name(path: &Path, bytes: &[u8]) {
        let other = path.with_file_name("other");
        fs::write(&other, bytes).unwrap();
        fs::rename(&other, path).unwrap();
    }

    #[test]
    fn what_another_program_does_meanwhile_is_edited_and_not_overwritten() {
        let changes: [fn(&Path); 3] = [
            |path| take_the_name(path, b"1"),
            |path| fs::write(path, b"12").unwrap(),
            |path| {
                thread::sleep(Duration::from_millis(20));
                fs::write(path, b"1").unwrap();
            },
        ];
        for (index, change) in changes.into_iter().enumerate() {
            let path = file(&format!("change-{index}"));
            let mut seen = Vec::new();
            let written = rewrite(&path, |locked| {
                seen.push(bytes_in(locked));
                if seen.len() == 1 {
                    change(&path);
                }
                Ok(Cow::Owned([seen.last().unwrap(), &b"x"[..]].concat()))
            });
            assert!(written.is_ok_and(|written| written.warnings.is_empty()));
            assert_eq!(seen.len(), 2);
            assert_eq!(fs::read(&path).unwrap(), [&seen[1][..], b"x"].concat());
            assert!(seen[1].starts_with(b"1"));
            assert_eq!(fs::read_dir(path.parent().unwrap()).unwrap().count(), 1);
            end(&path);
        }
    }

    #[test]
    fn a_file_that_keeps_changing_is_left_alone() {
        let path = file("restless");
        let mut number = 0;
        let written = rewrite(&path, |_| {
            number += 1;
            take_the_name(&path, number.to_string().as_bytes());
            Ok(Cow::Borrowed(b"lost"))
        });
        assert!(written.is_err());
        assert_eq!(fs::read(&path).unwrap(), number.to_string().as_bytes());
        end(&path);
    }

    #[test]
    fn a_file_that_is_removed_meanwhile_stays_removed() {
        let path = file("removed");
        let written = rewrite(&path, |_| {
            fs::remove_file(&path).unwrap();
            Ok(Cow::Borrowed(b"lost"))
        });
        assert!(written.is_err());
        assert_eq!(fs::read_dir(path.parent().unwrap()).unwrap().count(), 0);
        end(&path);
    }

    #[test]
    fn no_file_is_lost_between_the_last_look_and_the_rename() {
        let changes: [fn(&Path); 2] = [|path| take_the_name(path, b"1"), |path| fs::write(path, b"12").unwrap()];
        for (index, change) in changes.into_iter().enumerate() {
            let path = file(&format!("swap-{index}"));
            let locked = lock(&path).unwrap();
            let new = Temporary::beside(&path, 0o600, Some(&locked.about)).unwrap();
            if exchange(&path, &path).is_err_and(|e| is_unsupported(&e)) {
                eprintln!("names cannot be exchanged in {}", path.display());
                return end(&path);
            }
            change(&path);
            assert!(!swap(&locked, new).unwrap());
            assert!(fs::read(&path).unwrap().starts_with(b"1"));
            assert_eq!(fs::read_dir(path.parent().unwrap()).unwrap().count(), 1);
            end(&path);
        }
    }

    #[test]
    fn the_last_of_several_faster_programs_keeps_the_name() {
        let path = file("faster");
        let new = Temporary::beside(&path, 0o600, Some(&lock(&path).unwrap().about)).unwrap();
        if exchange(&path, &path).is_err_and(|e| is_unsupported(&e)) {
            return end(&path);
        }
        take_the_name(&path, b"1");
        exchange(&new.path, &path).unwrap();
        take_the_name(&path, b"2");
        put_back(&new, &path).unwrap();
        assert_eq!(fs::read(&path).unwrap(), b"2");
        drop(new);
        assert_eq!(fs::read_dir(path.parent().unwrap()).unwrap().count(), 1);
        end(&path);
    }

    #[test]
    fn the_file_of_another_program_is_not_removed_under_a_temporary_name() {
        let path = file("foreign");
        let new = Temporary::beside(&path, 0o600, Some(&lock(&path).unwrap().about)).unwrap();
        let name = new.path.clone();
        take_the_name(&path, b"1");
        fs::rename(&path, &name).unwrap();
        drop(new);
        remove_left_over(path.parent().unwrap());
        assert_eq!(fs::read(&name).unwrap(), b"1");
        end(&path);
    }

    #[test]
    fn an_edit_whose_turn_another_takes_is_not_done() {
        let path = file("crossed");
        let lock_file = path.with_file_name(".hdf4-file.lock");
        let locked = by_lock_file(&path, SHORT).unwrap();
        fs::remove_file(&lock_file).unwrap();
        fs::write(&lock_file, "process 1 on host other\n").unwrap();
        assert!(put_in_place(&locked, b"new").unwrap().is_none());
        drop(locked);
        assert_eq!(fs::read(&path).unwrap(), b"0");
        assert_eq!(names(&path), [".hdf4-file.lock", "file"]);
        end(&path);
    }

    #[test]
    fn an_edit_whose_temporary_file_is_removed_is_not_done() {
        let path = file("vanished");
        for lock in [lock, |path: &Path| by_lock_file(path, SHORT)] {
            let locked = lock(&path).unwrap();
            let new = Temporary::beside(&path, 0o600, Some(&locked.about)).unwrap();
            fs::remove_file(&new.path).unwrap();
            assert!(swap(&locked, new).is_err());
            assert_eq!(fs::read(&path).unwrap(), b"0");
            drop(locked);
            assert_eq!(names(&path), ["file"]);
        }
        end(&path);
    }
}
