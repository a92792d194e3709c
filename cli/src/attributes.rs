//! Owner, group, mode, access lists and other attributes of a file that takes another's place.

use std::ffi::{c_char, c_int, c_void, CStr, CString};
use std::fs::{File, Metadata, Permissions};
use std::io::{self, ErrorKind};
use std::os::fd::AsRawFd;
use std::os::unix::fs::{fchown, MetadataExt, PermissionsExt};

const ACCESS_LIST: &CStr = c"system.posix_acl_access";
/// The bits of a mode that lend the owner's or the group's rights.
const LENT_RIGHTS: u32 = 0o6000;

extern "C" {
    fn flistxattr(file: c_int, names: *mut c_char, room: usize) -> isize;
    fn fgetxattr(file: c_int, name: *const c_char, value: *mut c_void, room: usize) -> isize;
    fn fsetxattr(file: c_int, name: *const c_char, value: *const c_void, size: usize, flags: c_int) -> c_int;
    fn fremovexattr(file: c_int, name: *const c_char) -> c_int;
}

/// Gives a new file, which only its maker may read, the attributes of an old one, so that nobody gets more access than before.
/// The owner may change, where only the superuser could keep it, and is then named; all else is kept or refused.
pub fn keep(old: &File, about: &Metadata, new: &File) -> io::Result<Option<String>> {
    let owner = fchown(new, Some(about.uid()), Some(about.gid()));
    if owner.is_err() {
        let group = fchown(new, None, Some(about.gid()));
        group.map_err(|e| lost("its group", e))?;
    }
    keep_named(old, new)?;
    let mode = about.mode() & 0o7777;
    let mode = if owner.is_ok() { mode } else { mode & !LENT_RIGHTS };
    new.set_permissions(Permissions::from_mode(mode)).map_err(|e| lost("its mode", e))?;
    let owner_now = new.metadata()?.uid();
    Ok((owner_now != about.uid()).then(|| format!("its owner is user {owner_now} now, and was user {}", about.uid())))
}

/// The extended attributes, access lists among them.
fn keep_named(old: &File, new: &File) -> io::Result<()> {
    let kept = names(old)?;
    for name in &kept {
        let value = value(old, name)?;
        if self::value(new, name).is_ok_and(|present| present == value) {
            continue;
        }
        let set = unsafe { fsetxattr(new.as_raw_fd(), name.as_ptr(), value.as_ptr().cast(), value.len(), 0) };
        done(set).map_err(|e| lost(&about(name), e))?;
    }
    // The folder may have given the new file an access list of its own.
    if names(new)?.iter().any(|name| **name == *ACCESS_LIST) && !kept.iter().any(|name| **name == *ACCESS_LIST) {
        let removed = unsafe { fremovexattr(new.as_raw_fd(), ACCESS_LIST.as_ptr()) };
        done(removed).map_err(|e| lost(&about(ACCESS_LIST), e))?;
    }
    Ok(())
}

fn names(file: &File) -> io::Result<Vec<CString>> {
    let list = filled(|names, room| unsafe { flistxattr(file.as_raw_fd(), names.cast(), room) });
    match list {
        Err(e) if e.kind() == ErrorKind::Unsupported => Ok(Vec::new()),
        list => Ok(list?
            .split_inclusive(|byte| *byte == 0)
            .filter_map(|name| CString::from_vec_with_nul(name.to_vec()).ok())
            .collect()),
    }
}

fn value(file: &File, name: &CStr) -> io::Result<Vec<u8>> {
    filled(|value, room| unsafe { fgetxattr(file.as_raw_fd(), name.as_ptr(), value.cast(), room) })
}

/// What a call writes that says with no room how much it needs.
fn filled(call: impl Fn(*mut u8, usize) -> isize) -> io::Result<Vec<u8>> {
    let length = |answer: isize| usize::try_from(answer).map_err(|_| io::Error::last_os_error());
    let mut bytes = vec![0; length(call(std::ptr::null_mut(), 0))?];
    let filled = length(call(bytes.as_mut_ptr(), bytes.len()))?;
    bytes.truncate(filled);
    Ok(bytes)
}

fn done(answer: c_int) -> io::Result<()> {
    if answer == 0 {
        Ok(())
    } else {
        Err(io::Error::last_os_error())
    }
}

fn about(name: &CStr) -> String {
    let attribute = name.to_string_lossy();
    if *name == *ACCESS_LIST {
        format!("its access list ({attribute})")
    } else {
        format!("its attribute {attribute}")
    }
}

fn lost(what: &str, e: io::Error) -> io::Error {
    io::Error::new(e.kind(), format!("{what} cannot be kept, so it was not changed: {e}"))
}
