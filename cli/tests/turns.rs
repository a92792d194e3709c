//! Runs the built program many times at once, and beside other programs: no edit is lost, and no file is left behind.

mod common;

use common::files::TRAILER;
use common::{failed, granted, newest_desk, other_desk, program, refused, refused_on, text, Folder};
use std::fs::{self, File};
use std::os::unix::fs::{symlink, MetadataExt};
use std::path::Path;
use std::process::{Child, Command, Output, Stdio};
use std::thread;
use std::time::Duration;

fn start(words: &[&str]) -> Child {
    program().args(words).stdout(Stdio::null()).spawn().unwrap()
}

fn marks(file: &Path) -> usize {
    marks_of(file, "50000")
}

fn marks_of(file: &Path, tag: &str) -> usize {
    granted(&["list", text(file)]).lines().filter(|line| line.starts_with(&format!("tag {tag} "))).count()
}

#[test]
fn forty_edits_at_once_are_forty_marks() {
    let folder = Folder::new("forty");
    let file = folder.copy_of("elements.hdf");
    let before = fs::read(&file).unwrap();
    for round in 1..=3 {
        let add = |number: i32| start(&["add", text(&file), "50000", &(100 * round + number).to_string(), "/dev/null"]);
        let children: Vec<Child> = (0..40).map(add).collect();
        for mut child in children {
            assert!(child.wait().unwrap().success());
        }
        assert_eq!(marks(&file), 40 * round as usize);
        assert_eq!(folder.names(), ["elements.hdf"]);
    }
    (0..120).for_each(|_| drop(granted(&["undo", text(&file)])));
    assert_eq!(fs::read(&file).unwrap(), before);
}

#[test]
fn edits_and_undos_at_once_leave_what_was_not_undone() {
    let folder = Folder::new("mixed");
    let file = folder.copy_of("elements.hdf");
    let add = |number: i32| start(&["add", text(&file), "50000", &number.to_string(), "/dev/null"]);
    let mut children: Vec<Child> = (1..=40).map(add).collect();
    children.extend((0..15).map(|_| start(&["undo", text(&file)])));
    let done: Vec<bool> = children.iter_mut().map(|child| child.wait().unwrap().success()).collect();
    assert!(done[..40].iter().all(|added| *added));
    // An undo that came before the first edit was refused.
    let undone = done[40..].iter().filter(|undone| **undone).count();
    assert_eq!(marks(&file), 40 - undone);
}

/// How many edits a desk makes at once, each under a tag of the desk's own.
const EDITS: usize = 20;

fn tag_of(desk: u32) -> String {
    (50000 + desk).to_string()
}

/// A desk at its terminal: it starts its edits and an undo behind every second one, and then waits for them. Every edit is
/// granted. Answers how many undos are.
fn at_a_terminal(desk: u32, file: &Path) -> usize {
    let named = desk.to_string();
    let start = |words: &[&str]| {
        program().args(words).args(["--desk", &named]).stdout(Stdio::null()).stderr(Stdio::piped()).spawn().unwrap()
    };
    let (mut edits, mut undos) = (Vec::new(), Vec::new());
    for number in 1..=EDITS {
        edits.push(start(&["add", text(file), &tag_of(desk), &number.to_string(), "/dev/null"]));
        if number % 2 == 0 {
            undos.push(start(&["undo", text(file)]));
        }
    }
    for edit in edits {
        let Output { status, stderr, .. } = edit.wait_with_output().unwrap();
        assert!(status.success(), "{}", String::from_utf8_lossy(&stderr));
    }
    let ended = undos.into_iter().map(|undo| undo.wait_with_output().unwrap());
    ended.filter(|undo| is_granted(desk, undo)).count()
}

/// Whether an undo is granted. One that is not is refused since the newest edit is another desk's, and for nothing else.
fn is_granted(desk: u32, undo: &Output) -> bool {
    let message = String::from_utf8_lossy(&undo.stderr);
    if undo.status.success() {
        assert_eq!(message, "");
        return true;
    }
    assert_eq!(undo.status.code(), Some(1), "{message}");
    let (_, told) = message.split_once(": OTHER_DESK: the newest edit is desk ").expect(&message);
    let (newest, behind) = told.split_once("'s, and this is desk ").expect(&message);
    assert!(newest != desk.to_string() && behind.starts_with(&format!("{desk} (number 30, place ")), "{message}");
    false
}

#[test]
fn forty_edits_of_two_desks_at_once_are_undone_each_by_its_own() {
    let folder = Folder::new("desks");
    let file = &folder.copy_of("elements.hdf");
    let before = fs::read(file).unwrap();
    // Below theirs is an edit of a third desk, so that no undo is refused for want of an edit.
    granted(&["add", "--desk", "3", text(file), &tag_of(3), "1", "/dev/null"]);
    let desks = [1, 2];
    let undone = thread::scope(|scope| {
        let terminals = desks.map(|desk| scope.spawn(move || at_a_terminal(desk, file)));
        terminals.map(|terminal| terminal.join().unwrap())
    });
    for (desk, undone) in desks.into_iter().zip(undone) {
        assert_eq!(marks_of(file, &tag_of(desk)), EDITS - undone);
    }

    // Then the desks undo what is left, the third one the last of it: in all as many undos as edits.
    for _ in undone.iter().sum()..2 * EDITS + 1 {
        let newest = newest_desk(file);
        let other = newest % 3 + 1;
        refused_on(file, &["undo", "--desk", &other.to_string(), text(file)], &other_desk(file, newest, other));
        granted(&["undo", "--desk", &newest.to_string(), text(file)]);
    }
    assert_eq!(fs::read(file).unwrap(), before);
    assert_eq!(folder.names(), ["elements.hdf"]);
}

/// What the file is when the lock that an edit waits for is given up.
fn edited_after(test: &str, change: impl Fn(&Path)) -> (Folder, Vec<u8>) {
    let folder = Folder::new(test);
    let file = folder.copy_of("elements.hdf");
    let held = File::open(&file).unwrap();
    held.lock().unwrap();
    let mut child = start(&["add", text(&file), "50000", "1", "/dev/null"]);
    thread::sleep(Duration::from_millis(100));
    assert!(child.try_wait().unwrap().is_none(), "it did not wait");
    change(&file);
    drop(held);
    assert!(child.wait().unwrap().success());
    let after = fs::read(&file).unwrap();
    (folder, after)
}

#[test]
fn a_file_that_took_the_name_meanwhile_is_the_one_that_is_edited() {
    let mine = fs::read(common::file("empty.hdf")).unwrap();
    let (folder, after) = edited_after("renamed", |file| {
        let other = file.with_file_name("other");
        fs::write(&other, &mine).unwrap();
        fs::rename(&other, file).unwrap();
    });
    assert_eq!(after.len(), mine.len() + TRAILER);
    granted(&["undo", &folder.word("elements.hdf")]);
    assert_eq!(fs::read(folder.path("elements.hdf")).unwrap(), mine);
}

#[test]
fn a_file_that_was_written_meanwhile_is_edited_as_it_is_then() {
    let mine = fs::read(common::file("empty.hdf")).unwrap();
    let (_folder, after) = edited_after("written", |file| fs::write(file, &mine).unwrap());
    assert_eq!(after.len(), mine.len() + TRAILER);
}

#[test]
fn a_file_that_was_removed_meanwhile_is_not_made_again() {
    let folder = Folder::new("removed");
    let file = folder.copy_of("elements.hdf");
    let held = File::open(&file).unwrap();
    held.lock().unwrap();
    let mut child = program().args(["add", text(&file), "50000", "1", "/dev/null"]).stderr(Stdio::null()).spawn().unwrap();
    thread::sleep(Duration::from_millis(100));
    fs::remove_file(&file).unwrap();
    drop(held);
    assert_eq!(child.wait().unwrap().code(), Some(3));
    assert!(folder.names().is_empty());
}

/// A file under the temporary name of a new file, or of one that was to be replaced.
fn left(folder: &Folder, name: impl Fn(u64, i64) -> String) -> String {
    let path = folder.holding("left", b"left");
    let about = fs::metadata(&path).unwrap();
    let name = name(about.ino(), about.mtime() * 1_000_000_000 + about.mtime_nsec());
    fs::rename(&path, folder.path(&name)).unwrap();
    name
}

#[test]
fn files_of_killed_programs_are_removed_and_no_others() {
    let folder = Folder::new("left");
    let file = folder.copy_of("elements.hdf");
    left(&folder, |number, _| format!(".hdf4-{number}-5-6.tmp"));
    left(&folder, |number, time| format!(".hdf4-5-{number}-{time}.tmp"));
    folder.holding(".hdf4-123456-12.new", b"");

    // Those of others: with another number, written since, not empty, or no files at all.
    let mut others = vec![
        left(&folder, |_, _| ".hdf4-5-6-7.tmp".to_string()),
        left(&folder, |number, _| format!(".hdf4-5-{number}-7.tmp")),
        left(&folder, |_, _| ".hdf4-1-0.new".to_string()),
        left(&folder, |number, _| format!(".hdf4-{number}.tmp")),
    ];
    assert!(Command::new("mkfifo").arg(folder.path(".hdf4-1-1.new")).status().unwrap().success());
    symlink("/dev/null", folder.path(".hdf4-1-2.new")).unwrap();
    others.extend([".hdf4-1-1.new".to_string(), ".hdf4-1-2.new".to_string()]);
    // A program that still runs has its file locked.
    let name = left(&folder, |number, _| format!(".hdf4-{number}-1-1.tmp"));
    let busy = File::open(folder.path(&name)).unwrap();
    busy.lock().unwrap();

    // Also an edit that is refused cleans up.
    refused(&["undo", text(&file)]);
    let mut expected = [&others[..], &[name.clone(), "elements.hdf".to_string()]].concat();
    expected.sort();
    assert_eq!(folder.names(), expected);
    drop(busy);
    granted(&["read", text(&file), "30", "1", &folder.word("out")]);
    assert!(!folder.names().contains(&name));
}

#[test]
fn a_refused_edit_leaves_no_file() {
    let folder = Folder::new("refused");
    let file = folder.copy_of("elements.hdf");
    refused(&["remove", text(&file), "50000", "1"]);
    assert!(failed(&["undo", &folder.word("absent")]).contains("absent"));
    assert!(failed(&["undo", &folder.word("")]).contains("not a regular file"));
    assert_eq!(folder.names(), ["elements.hdf"]);
}
