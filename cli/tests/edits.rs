//! Runs the built program on copies of real files: edits, undo, refusals, and how a file is written back.

mod common;

use common::files::TRAILER;
use common::{granted, misused, program, refused, refused_on, text, Folder, FILES};
use std::fs;
use std::io::Write;
use std::process::Stdio;
use std::thread;
use std::time::Duration;

#[test]
fn an_added_element_is_listed_and_undone() {
    let folder = Folder::new("add");
    let (file, data) = (folder.copy_of("elements.hdf"), folder.holding("data", b"closed"));
    let before = fs::read(&file).unwrap();
    let (file_word, data_word) = (text(&file), text(&data));

    let printed = granted(&["add", file_word, "40000", "5", data_word]);
    let after = fs::read(&file).unwrap();
    assert_eq!(printed, format!("{file_word}: {} bytes\n", after.len()));
    assert_eq!(after.len(), before.len() + 6 + TRAILER);
    let line = format!("tag 40000 ref 5 offset {} length 6\n", before.len());
    assert!(granted(&["list", file_word]).contains(&line));

    assert_eq!(granted(&["undo", file_word]), format!("{file_word}: {} bytes\n", before.len()));
    assert_eq!(fs::read(&file).unwrap(), before);
    refused_on(&file, &["undo", file_word], "NO_EDIT: there is no edit to undo (number 20, place 0)");
}

#[test]
fn edits_are_undone_one_after_the_other() {
    let folder = Folder::new("undo");
    let (file, data) = (folder.copy_of("empty.hdf"), folder.holding("data", b"closed"));
    let (file_word, data_word) = (text(&file), text(&data));
    let edits: [&[&str]; 4] = [
        &["add", file_word, "0x9c40", "5", data_word],
        &["replace", file_word, "40000", "0x5", "/dev/null"],
        &["remove", file_word, "40000", "5"],
        &["add", file_word, "40000", "6", data_word],
    ];
    let mut files = Vec::new();
    for words in edits {
        files.push(fs::read(&file).unwrap());
        granted(words);
    }
    for before in files.iter().rev() {
        granted(&["undo", file_word]);
        assert_eq!(&fs::read(&file).unwrap(), before);
    }
}

#[test]
fn every_file_that_opens_is_edited_and_undone() {
    let folder = Folder::new("all");
    let data = folder.holding("data", b"closed");
    let names = fs::read_dir(FILES).unwrap().map(|entry| entry.unwrap().file_name().into_string().unwrap());
    for name in names.filter(|name| name.ends_with(".hdf")) {
        let file = folder.copy_of(&name);
        let before = fs::read(&file).unwrap();
        let opens = program().args(["list", text(&file)]).output().unwrap().status.success();
        if !opens {
            refused(&["add", text(&file), "40000", "4321", text(&data)]);
            assert_eq!(fs::read(&file).unwrap(), before, "{name}");
            continue;
        }
        granted(&["add", text(&file), "40000", "4321", text(&data)]);
        granted(&["remove", text(&file), "40000", "4321"]);
        granted(&["undo", text(&file)]);
        granted(&["undo", text(&file)]);
        assert_eq!(fs::read(&file).unwrap(), before, "{name}");
    }
}

#[test]
fn data_come_from_standard_input() {
    let folder = Folder::new("input");
    let file = folder.copy_of("elements.hdf");
    let add = ["add", text(&file), "40000", "5", "-"];
    let mut child = program().args(add).stdin(Stdio::piped()).stdout(Stdio::null()).spawn().unwrap();
    child.stdin.take().unwrap().write_all(b"closed at noon").unwrap();
    assert!(child.wait().unwrap().success());
    let after = fs::read(&file).unwrap();
    assert!(after[..after.len() - TRAILER].ends_with(b"closed at noon"));
}

#[test]
fn refusals_name_their_rule_and_leave_the_file() {
    let folder = Folder::new("refused");
    let (file, data) = (folder.copy_of("empty.hdf"), folder.holding("data", b"closed"));
    let (file_word, data_word) = (text(&file), text(&data));
    refused_on(&file, &["add", file_word, "107", "1", data_word], "BAD_TAG: a tag is not allowed (number 7, place 0)");
    refused_on(&file, &["remove", file_word, "40000", "5"], "(number 11, place 0)");
    refused_on(&file, &["undo", file_word], "(number 20, place 0)");
    granted(&["add", file_word, "40000", "5", data_word]);
    refused_on(&file, &["add", file_word, "40000", "5", data_word], "PRESENT");

    let mut bytes = fs::read(&file).unwrap();
    let trailer = bytes.len() - TRAILER;
    bytes[trailer + 4] = 1;
    fs::write(&file, &bytes).unwrap();
    refused_on(&file, &["undo", file_word], &format!("(number 21, place {trailer})"));

    let other = folder.copy_of("two_machine_types.hdf");
    refused_on(&other, &["add", text(&other), "40000", "5", data_word], "TWICE");
}

#[test]
fn an_element_that_is_not_stored_is_replaced_or_removed_and_not_added() {
    let folder = Folder::new("unstored");
    let (file, data) = (folder.copy_of("set_aside.hdf"), folder.holding("data", b"closed"));
    let (file_word, data_word) = (text(&file), text(&data));
    let before = fs::read(&file).unwrap();
    let listed = granted(&["list", file_word]);
    assert!(listed.ends_with("\ntag 900 ref 2 not stored\n"), "{listed}");

    let there = "PRESENT: there is already an element with that tag and reference (number 18, place 0)";
    let way = format!("{there}; it is not stored yet, and hdf4 replace stores it\n");
    refused_on(&file, &["add", file_word, "900", "2", data_word], &way);
    refused_on(&file, &["add", file_word, "900", "1", data_word], &format!("{there}\n"));
    refused_on(&file, &["add", file_word, "17284", "2", data_word], "BAD_TAG: a tag is not allowed (number 7, place 0)\n");

    granted(&["replace", file_word, "900", "2", data_word]);
    assert_eq!(granted(&["read", file_word, "900", "2"]), "closed");
    assert!(granted(&["list", file_word]).ends_with(&format!("\ntag 900 ref 2 offset {} length 6\n", before.len())));
    granted(&["undo", file_word]);
    assert_eq!(fs::read(&file).unwrap(), before);

    granted(&["remove", file_word, "900", "2"]);
    assert!(!granted(&["list", file_word]).contains("tag 900 ref 2"));
    refused_on(&file, &["read", file_word, "900", "2"], "ABSENT");
    granted(&["undo", file_word]);
    assert_eq!(fs::read(&file).unwrap(), before);
}

#[test]
fn reference_0_has_to_be_allowed() {
    let folder = Folder::new("zero");
    let file = folder.copy_of("empty.hdf");
    let before = fs::read(&file).unwrap();
    let message = misused(&["add", text(&file), "40000", "0", "/dev/null"]);
    assert!(message.contains("--allow-zero"), "{message}");
    assert_eq!(fs::read(&file).unwrap(), before);
    granted(&["add", "--allow-zero", text(&file), "40000", "0", "/dev/null"]);
    assert!(granted(&["list", text(&file)]).contains("tag 40000 ref 0 "));
    granted(&["remove", text(&file), "40000", "0"]);
}

#[test]
fn a_killed_program_leaves_the_old_file_or_the_new_one() {
    let folder = Folder::new("killed");
    let (file, data) = (folder.copy_of("empty.hdf"), folder.holding("data", &vec![0x2a; 1 << 20]));
    let add = ["add", text(&file), "40000", "5", text(&data)];
    let old = fs::read(&file).unwrap();
    granted(&add);
    let new = fs::read(&file).unwrap();
    for delay in 0..40 {
        fs::write(&file, &old).unwrap();
        let mut child = program().args(add).stdout(Stdio::null()).spawn().unwrap();
        thread::sleep(Duration::from_micros(100 * delay));
        child.kill().unwrap();
        child.wait().unwrap();
        let left = fs::read(&file).unwrap();
        assert!(left == old || left == new, "after {delay}");
    }
    // What killed programs left beside the file goes with the next edit.
    fs::write(&file, &old).unwrap();
    granted(&add);
    assert_eq!(fs::read(&file).unwrap(), new);
    assert_eq!(folder.names(), ["data", "empty.hdf"]);
}
