//! Runs the built program on small files that ask for much time or memory, and on large ones.

mod common;

use common::files::{linked_record, sparse_record};
use common::terminal::on_a_terminal;
use common::{granted, program, refused, text, Folder};
use std::fs::{self, File};
use std::process::{Command, Output};
use std::time::{Duration, Instant};

/// More than any command here may take.
const LONG: Duration = Duration::from_secs(30);

/// A file of one block with these elements: tag, reference and bytes, which equal ones share.
fn file_of(elements: &[(u16, u16, &[u8])]) -> Vec<u8> {
    let mut image = b"\x0e\x03\x13\x01".to_vec();
    image.extend((elements.len() as u16).to_be_bytes());
    image.extend([0; 4]);
    let (mut bytes, mut last): (Vec<u8>, &[u8]) = (Vec::new(), &[]);
    for (tag, reference, data) in elements {
        if *data != last {
            bytes.extend(*data);
            last = data;
        }
        let offset = 10 + 12 * elements.len() + bytes.len() - data.len();
        image.extend(tag.to_be_bytes());
        image.extend(reference.to_be_bytes());
        image.extend((offset as u32).to_be_bytes());
        image.extend((data.len() as u32).to_be_bytes());
    }
    [image, bytes].concat()
}

/// A Vgroup of members of tag 1965, without name and class.
fn group(members: &[u16]) -> Vec<u8> {
    let count = members.len() as u16;
    let numbers = [&[count][..], &vec![1965; members.len()], members, &[0, 0, 0, 0, 3, 0]].concat();
    numbers.iter().flat_map(|number| number.to_be_bytes()).collect()
}

/// The program with so many KiB of memory.
fn with_memory(kib: u32, words: &[&str]) -> Command {
    let mut command = Command::new("sh");
    command.args(["-c", &format!("ulimit -v {kib}; exec \"$0\" \"$@\""), env!("CARGO_BIN_EXE_hdf4")]).args(words);
    command
}

#[test]
fn thousands_of_groups_with_descending_references_are_listed() {
    let folder = Folder::new("descending");
    let empty = group(&[]);
    let groups: Vec<(u16, u16, &[u8])> = (1..=4095).rev().map(|reference| (1965, reference, &empty[..])).collect();
    let path = folder.holding("groups.hdf", &file_of(&groups));
    assert!(fs::metadata(&path).unwrap().len() < 50_000);
    let start = Instant::now();
    let listed = granted(&["groups", text(&path)]);
    assert!(start.elapsed() < LONG);
    let expected = (1..=4095).rev().map(|reference| format!("ref {reference} class \"\" name \"\"\n"));
    assert_eq!(listed, expected.collect::<String>());
}

#[test]
fn groups_below_many_others_are_listed_below_each() {
    let folder = Folder::new("shared");
    let (wide, holder, twice, empty) = (group(&(2..=2001).collect::<Vec<u16>>()), group(&[1]), group(&[1, 1, 1]), group(&[]));
    let bytes = |reference: u16| match reference {
        1 => &wide[..],
        2..=2001 => &empty,
        2002..=2050 => &holder,
        _ => &twice,
    };
    let groups: Vec<(u16, u16, &[u8])> = (1..=4095).rev().map(|reference| (1965, reference, bytes(reference))).collect();
    let path = folder.holding("groups.hdf", &file_of(&groups));
    let start = Instant::now();
    let Output { status, stdout, stderr } = program().args(["groups", text(&path)]).output().unwrap();
    assert!(start.elapsed() < LONG);
    assert_eq!(status.code(), Some(1));
    assert_eq!(stdout.iter().filter(|byte| **byte == b'\n').count(), 2050 + 2000 + 49 * 2001);
    // Three times 2,001 pairs are more than can be listed: 100 of these groups are named.
    let messages = String::from_utf8(stderr).unwrap();
    assert_eq!(messages.lines().filter(|line| line.contains("SMALL")).count(), 100);
    assert!(messages.ends_with(": 1945 more Vgroups are refused\n"), "{messages}");
}

/// A thousand groups and a thousand Vgroups, each of which names a thousand arrays.
#[test]
fn arrays_that_many_groups_name_are_listed() {
    let folder = Folder::new("named");
    const COUNT: u16 = 1000;
    let numbers = |numbers: &[u16]| numbers.iter().flat_map(|number| number.to_be_bytes()).collect::<Vec<u8>>();
    let members = numbers(&(1..=COUNT).flat_map(|reference| [702, reference]).chain([701, 1]).collect::<Vec<u16>>());
    let references: Vec<u16> = (1..=COUNT).collect();
    let vgroup = [
        &numbers(&[&[COUNT][..], &[702; COUNT as usize], &references, &[4]].concat())[..],
        b"snow\0\x06Var0.0",
        &numbers(&[0, 0, 3, 0]),
    ];
    let (vgroup, dimensions) = (vgroup.concat(), numbers(&[1, 0, 1, 106, 1, 106, 1]));
    let mut elements: Vec<(u16, u16, &[u8])> = vec![(106, 1, b"\x01\x15\x08\x01"), (701, 1, &dimensions)];
    for (tag, bytes) in [(702, &b"*"[..]), (720, &members), (1965, &vgroup)] {
        elements.extend((1..=COUNT).map(|reference| (tag, reference, bytes)));
    }
    let path = folder.holding("named.hdf", &file_of(&elements));
    let start = Instant::now();
    assert_eq!(granted(&["grids", text(&path)]).lines().count(), COUNT.into());
    assert_eq!(granted(&["grid", text(&path), "702/7"]), "42\n");
    assert_eq!(granted(&["grid", text(&path), "--name", "snow"]), "42\n");
    assert!(start.elapsed() < LONG);
}

#[test]
fn groups_that_share_a_long_record_take_memory_that_may_be_missing() {
    let folder = Folder::new("members");
    let long = group(&vec![9000; 4096]);
    let groups: Vec<(u16, u16, &[u8])> = (1..=4095).map(|reference| (1965, reference, &long[..])).collect();
    let path = folder.holding("groups.hdf", &file_of(&groups));
    let Output { status, stdout, stderr } = with_memory(60_000, &["groups", text(&path)]).output().unwrap();
    let message = String::from_utf8(stderr).unwrap();
    assert_eq!((status.code(), stdout.len()), (Some(3), 0), "{message}");
    assert!(message.contains("there is no memory for all of it"), "{message}");
}

/// A file of 196 KB with an element of 4 GB: one block of 64 KiB, named 65,535 times.
fn linked_file() -> Vec<u8> {
    let block = vec![0x2a; 65536];
    let table: Vec<u8> = [&[0, 0][..], &[0, 2].repeat(65535)].concat();
    let record = linked_record([65536 * 65535, 65536, 65536, 65535], 1);
    file_of(&[(16384 + 100, 1, &record), (20, 1, &table), (20, 2, &block)])
}

/// A file of 54 bytes with an element of 4 GB: one block, which was never written.
fn unwritten_file() -> Vec<u8> {
    file_of(&[(16384 + 100, 1, &sparse_record([u32::MAX, u32::MAX, 1], 1)), (20, 1, &[0; 4])])
}

#[test]
fn a_small_file_with_a_huge_element_takes_little_memory() {
    let folder = Folder::new("linked");
    for (bytes, most, size) in [(linked_file(), 200_000, "4294901760"), (unwritten_file(), 54, "4294967295")] {
        assert!(bytes.len() <= most);
        let path = folder.holding("linked.hdf", &bytes);
        let Output { status, stderr, .. } = with_memory(400_000, &["read", text(&path), "100", "1"]).output().unwrap();
        let message = String::from_utf8(stderr).unwrap();
        assert_eq!(status.code(), Some(1), "{message}");
        let told = format!("SMALL: the output is too short (number 14, place 0); the element has {size} bytes, see --most");
        assert!(message.contains(&told), "{message}");

        let words = ["read", "--most", "4294967295", text(&path), "100", "1", "/dev/null"];
        let Output { status, stderr, .. } = with_memory(400_000, &words).output().unwrap();
        let message = String::from_utf8(stderr).unwrap();
        assert_eq!(status.code(), Some(3), "{message}");
        assert!(message.contains(&format!("there is no memory for {size} bytes")), "{message}");
        assert_eq!(message.lines().count(), 1);
    }
}

#[test]
fn a_file_over_the_limit_is_told_by_its_size() {
    let folder = Folder::new("long");
    let path = folder.path("long.hdf");
    File::create(&path).unwrap().set_len(3 << 30).unwrap();
    let path = text(&path);
    let start = Instant::now();
    let commands: [&[&str]; 5] =
        [&["list", path], &["read", path, "100", "1"], &["groups", path], &["values", path, "1"], &["undo", path]];
    for words in commands {
        let message = refused(words);
        assert!(message.contains("TOO_LONG") && message.contains("(number 1, place 0)"), "{message}");
    }
    let small = folder.copy_of("empty.hdf");
    assert!(refused(&["add", text(&small), "40000", "5", path]).contains("TOO_LONG"));
    assert!(start.elapsed() < Duration::from_secs(5), "it was read");
}

#[test]
fn memory_that_cannot_be_had_is_a_message() {
    let folder = Folder::new("memory");
    let path = folder.path("large.hdf");
    File::create(&path).unwrap().set_len(1 << 30).unwrap();
    for words in [&["list", text(&path)][..], &["undo", text(&path)], &["values", text(&path), "1"]] {
        let Output { status, stdout, stderr } = with_memory(400_000, words).output().unwrap();
        let message = String::from_utf8(stderr).unwrap();
        assert_eq!(status.code(), Some(3), "{message}");
        assert!(stdout.is_empty() && message.contains("there is no memory for"), "{message}");
    }
    // A stream has no size beforehand.
    let Output { status, stderr, .. } =
        with_memory(400_000, &["list", "-"]).stdin(File::open("/dev/zero").unwrap()).output().unwrap();
    let message = String::from_utf8(stderr).unwrap();
    assert_eq!(status.code(), Some(3), "{message}");
    assert!(message.starts_with("hdf4: standard input: "), "{message}");
}

#[test]
fn long_work_shows_progress_on_a_terminal() {
    let folder = Folder::new("progress");
    let (wide, holder, empty) = (group(&(2..=2001).collect::<Vec<u16>>()), group(&[1]), group(&[]));
    let bytes = |reference: u16| match reference {
        1 => &wide[..],
        2..=2001 => &empty,
        _ => &holder,
    };
    let groups: Vec<(u16, u16, &[u8])> = (1..=4095).map(|reference| (1965, reference, bytes(reference))).collect();
    let path = folder.holding("groups.hdf", &file_of(&groups));
    let mut command = Command::new("sh");
    command.args(["-c", "exec \"$0\" \"$@\" >/dev/null", env!("CARGO_BIN_EXE_hdf4"), "groups", text(&path)]);
    let (status, seen) = on_a_terminal(&mut command);
    assert_eq!(status, 0);
    assert!(seen.contains("\rhdf4: groups: ") && seen.contains(" of 4095"), "{seen}");
    assert!(seen.ends_with("\r\x1b[K"), "{seen}");
}
