//! Runs the built program on files with owners, groups, modes, access lists and several names. What only the superuser can set up
//! is tried where the tests run as one.

mod common;

use common::{ended_as, failed, granted, program, text, Folder};
use std::ffi::{c_char, c_int, c_void, CString};
use std::fs;
use std::os::unix::fs::{chown, symlink, MetadataExt, PermissionsExt};
use std::os::unix::process::CommandExt;
use std::path::{Path, PathBuf};
use std::process::Command;

const USER: u32 = 4001;
const OTHER_USER: u32 = 4002;
const OTHER_GROUP: u32 = 4005;

fn set_mode(path: &Path, mode: u32) {
    fs::set_permissions(path, fs::Permissions::from_mode(mode)).unwrap();
}

/// Owner, group and mode.
fn attributes(path: &Path) -> (u32, u32, u32) {
    let about = fs::metadata(path).unwrap();
    (about.uid(), about.gid(), about.mode() & 0o7777)
}

fn is_superuser() -> bool {
    let about = fs::metadata("/proc/self").unwrap();
    about.uid() == 0
}

#[test]
fn modes_and_links_are_kept_and_nothing_is_left_behind() {
    let folder = Folder::new("kept");
    let file = folder.copy_of("empty.hdf");
    let link = folder.path("link.hdf");
    symlink("empty.hdf", &link).unwrap();
    for mode in [0o600, 0o640, 0o664, 0o606] {
        set_mode(&file, mode);
        let before = attributes(&file);
        granted(&["add", text(&link), "40000", &mode.to_string(), "/dev/null"]);
        assert_eq!(attributes(&file), before);
    }
    assert!(fs::symlink_metadata(&link).unwrap().is_symlink());
    assert!(granted(&["list", text(&file)]).contains("tag 40000"));
    assert_eq!(folder.names(), ["empty.hdf", "link.hdf"]);
}

#[test]
fn a_file_with_several_names_is_not_edited() {
    let folder = Folder::new("hard");
    let file = folder.copy_of("empty.hdf");
    let other = folder.path("other.hdf");
    fs::hard_link(&file, &other).unwrap();
    let before = fs::read(&file).unwrap();
    for path in [&file, &other] {
        let message = failed(&["add", text(path), "40000", "5", "/dev/null"]);
        assert!(message.contains("2 names (hard links)"), "{message}");
    }
    assert_eq!(fs::metadata(&file).unwrap().ino(), fs::metadata(&other).unwrap().ino());
    assert_eq!(fs::read(&other).unwrap(), before);
    assert_eq!(folder.names(), ["empty.hdf", "other.hdf"]);
    fs::remove_file(&other).unwrap();
    granted(&["add", text(&file), "40000", "5", "/dev/null"]);
}

/// A file with an owner, a group and a mode, in a folder that everyone may write to, with the program beside it.
fn shared(folder: &Folder, owner: u32, group: u32, mode: u32) -> PathBuf {
    set_mode(&folder.path(""), 0o777);
    let program = folder.path("hdf4");
    if !program.exists() {
        fs::copy(env!("CARGO_BIN_EXE_hdf4"), &program).unwrap();
        set_mode(&program, 0o755);
    }
    let file = folder.copy_of("empty.hdf");
    chown(&file, Some(owner), Some(group)).unwrap();
    set_mode(&file, mode);
    file
}

/// An edit of a file by a user who is in no group but that of the same number.
fn added_by_user(folder: &Folder, file: &Path) -> Command {
    let mut command = Command::new(folder.path("hdf4"));
    command.args(["add", text(file), "40000", "5", "/dev/null"]).uid(USER).gid(USER);
    command
}

#[test]
fn the_superuser_keeps_owner_and_group() {
    if !is_superuser() {
        return;
    }
    let folder = Folder::new("superuser");
    for mode in [0o640, 0o4664] {
        let file = shared(&folder, OTHER_USER, OTHER_GROUP, mode);
        granted(&["add", text(&file), "40000", "5", "/dev/null"]);
        assert_eq!(attributes(&file), (OTHER_USER, OTHER_GROUP, mode));
        fs::remove_file(&file).unwrap();
    }
}

#[test]
fn a_member_of_the_group_keeps_group_and_mode() {
    if !is_superuser() {
        return;
    }
    let folder = Folder::new("member");
    for (mode, kept) in [(0o664, 0o664), (0o660, 0o660), (0o6664, 0o664)] {
        let file = shared(&folder, OTHER_USER, USER, mode);
        let (_, message) = ended_as(0, &mut added_by_user(&folder, &file));
        assert!(message.ends_with("its owner is user 4001 now, and was user 4002\n"), "{message}");
        assert_eq!(attributes(&file), (USER, USER, kept));
        fs::remove_file(&file).unwrap();
    }
}

#[test]
fn an_edit_that_would_change_the_group_is_refused() {
    if !is_superuser() {
        return;
    }
    let folder = Folder::new("stranger");
    let file = shared(&folder, OTHER_USER, OTHER_GROUP, 0o666);
    let before = fs::read(&file).unwrap();
    let (_, message) = ended_as(3, &mut added_by_user(&folder, &file));
    assert!(message.contains("its group cannot be kept"), "{message}");
    set_mode(&file, 0o664);
    let (_, message) = ended_as(3, &mut added_by_user(&folder, &file));
    assert!(message.contains("Permission denied"), "{message}");
    assert_eq!(attributes(&file), (OTHER_USER, OTHER_GROUP, 0o664));
    assert_eq!(fs::read(&file).unwrap(), before);
    assert_eq!(folder.names(), ["empty.hdf", "hdf4"]);
}

#[test]
fn a_folder_that_cannot_be_written_to_is_told() {
    if !is_superuser() {
        return;
    }
    let folder = Folder::new("folder");
    let file = shared(&folder, USER, USER, 0o664);
    set_mode(&folder.path(""), 0o755);
    let (_, message) = ended_as(3, &mut added_by_user(&folder, &file));
    assert!(message.contains("no file can be made beside it: Permission denied"), "{message}");
}

extern "C" {
    fn setxattr(path: *const c_char, name: *const c_char, value: *const c_void, size: usize, flags: c_int) -> c_int;
    fn getxattr(path: *const c_char, name: *const c_char, value: *mut c_void, room: usize) -> isize;
}

/// Sets an extended attribute; says whether the file system has such.
fn set(path: &Path, name: &str, value: &[u8]) -> bool {
    let (path, name) = (CString::new(text(path)).unwrap(), CString::new(name).unwrap());
    unsafe { setxattr(path.as_ptr(), name.as_ptr(), value.as_ptr().cast(), value.len(), 0) == 0 }
}

fn get(path: &Path, name: &str) -> Option<Vec<u8>> {
    let (path, name) = (CString::new(text(path)).unwrap(), CString::new(name).unwrap());
    let mut value = vec![0; 1000];
    let length = unsafe { getxattr(path.as_ptr(), name.as_ptr(), value.as_mut_ptr().cast(), value.len()) };
    value.truncate(usize::try_from(length).ok()?);
    Some(value)
}

/// An access list by which one more user may read, in the kernel's layout.
fn access_list(user: u32) -> Vec<u8> {
    let entries: [(u16, u16, u32); 5] = [(1, 6, u32::MAX), (2, 4, user), (4, 4, u32::MAX), (16, 4, u32::MAX), (32, 0, u32::MAX)];
    let entry =
        |(kind, rights, who): (u16, u16, u32)| [&kind.to_le_bytes()[..], &rights.to_le_bytes(), &who.to_le_bytes()].concat();
    [2u32.to_le_bytes().to_vec(), entries.into_iter().flat_map(entry).collect()].concat()
}

#[test]
fn access_lists_and_attributes_are_kept() {
    let folder = Folder::new("lists");
    let file = folder.copy_of("empty.hdf");
    let list = access_list(USER);
    let has_lists = set(&file, "system.posix_acl_access", &list);
    let has_notes = set(&file, "user.origin", b"depot 7");
    let before = attributes(&file);
    granted(&["add", text(&file), "40000", "5", "/dev/null"]);
    assert_eq!(attributes(&file), before);
    assert_eq!(get(&file, "system.posix_acl_access"), has_lists.then_some(list));
    assert_eq!(get(&file, "user.origin"), has_notes.then_some(b"depot 7".to_vec()));
}

#[test]
fn a_folder_does_not_give_the_file_its_access_list() {
    let folder = Folder::new("default");
    let file = folder.copy_of("empty.hdf");
    set_mode(&file, 0o640);
    set(&folder.path(""), "system.posix_acl_default", &access_list(USER));
    granted(&["add", text(&file), "40000", "5", "/dev/null"]);
    assert_eq!(get(&file, "system.posix_acl_access"), None);
    assert_eq!(fs::metadata(&file).unwrap().mode() & 0o777, 0o640);
    assert!(program().args(["undo", text(&file)]).status().unwrap().success());
}
