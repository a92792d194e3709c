//! Runs the built program at several desks on one file: each undoes its own edits alone, and is told whose the newest one is.

mod common;

use common::files::{file_of, slot, TRAILER};
use common::{ended_as, ended_with_a_line, file, granted, misused, newest_desk, other_desk, program, program_at};
use common::{refused_on, text, Folder};
use std::fs;
use std::process::Stdio;

/// Desks that are not named as a number from 0 to 4294967295.
const WRONG: [&str; 8] = ["-1", "+1", "4294967296", "two", "1.0", " 1", "1 ", "0x"];

fn at(desk: u32) -> String {
    format!("--desk={desk}")
}

/// An edit of each kind, to be made one after the other.
fn edits(file: &str) -> [Vec<&str>; 3] {
    let with_data = |command| vec![command, file, "40000", "5", "/dev/null"];
    [with_data("add"), with_data("replace"), vec!["remove", file, "40000", "5"]]
}

#[test]
fn each_desk_undoes_its_own_edits_alone() {
    let folder = Folder::new("own");
    let file = folder.copy_of("elements.hdf");
    let desks = [1, u32::MAX, 0];
    let mut files = Vec::new();
    for (words, desk) in edits(text(&file)).iter().zip(desks) {
        files.push(fs::read(&file).unwrap());
        granted(&[&words[..], &[&at(desk)]].concat());
    }
    for (before, newest) in files.iter().zip(desks).rev() {
        for desk in desks.into_iter().filter(|desk| *desk != newest) {
            refused_on(&file, &["undo", text(&file), &at(desk)], &other_desk(&file, newest, desk));
        }
        granted(&["undo", text(&file), &at(newest)]);
        assert_eq!(&fs::read(&file).unwrap(), before);
    }
    for desk in desks {
        refused_on(&file, &["undo", text(&file), &at(desk)], "NO_EDIT");
    }
}

#[test]
fn a_damaged_trailer_is_told_to_every_desk() {
    let folder = Folder::new("damaged");
    let file = folder.copy_of("elements.hdf");
    granted(&["add", "--desk", "1", text(&file), "40000", "5", "/dev/null"]);
    let mut bytes = fs::read(&file).unwrap();
    let trailer = bytes.len() - TRAILER;
    bytes[trailer] = 0xff;
    fs::write(&file, &bytes).unwrap();
    let told = format!("BAD_TRAILER: the trailer of the last edit is damaged (number 21, place {trailer})\n");
    for desk in 0..3 {
        refused_on(&file, &["undo", text(&file), &at(desk)], &told);
    }
}

#[test]
fn the_option_names_the_desk_or_else_the_variable() {
    let folder = Folder::new("named");
    let (file, before) = (folder.copy_of("elements.hdf"), fs::read(file("elements.hdf")).unwrap());
    let edits = edits(text(&file));
    let cases: [(Option<&str>, &[&str], u32); 8] = [
        (None, &[], 0),
        (None, &["--desk", "4294967295"], u32::MAX),
        (None, &["--desk=1", "--desk=3"], 3),
        (Some(""), &[], 0),
        (Some("2"), &[], 2),
        (Some("4294967295"), &[], u32::MAX),
        (Some("2"), &["--desk", "0"], 0),
        (Some("two"), &["--desk", "3"], 3),
    ];
    for (variable, option, desk) in cases {
        let run = |words: &[&str]| drop(ended_as(0, variable.map_or_else(program, program_at).args(words).args(option)));
        for words in &edits {
            run(words);
            assert_eq!(newest_desk(&file), desk, "{variable:?} {option:?} {words:?}");
        }
        edits.iter().for_each(|_| run(&["undo", text(&file)]));
        assert_eq!(fs::read(&file).unwrap(), before);
    }
}

#[test]
fn what_is_no_desk_is_told_in_one_line() {
    let folder = Folder::new("wrong");
    let (file, before) = (folder.copy_of("elements.hdf"), fs::read(file("elements.hdf")).unwrap());
    let undo = vec!["undo", text(&file)];
    for words in edits(text(&file)).iter().chain([&undo]) {
        for desk in WRONG {
            let told = format!("{desk}: not a number from 0 to 4294967295\n");
            assert_eq!(misused(&[words, &["--desk", desk][..]].concat()), format!("hdf4: --desk {told}"));
            assert_eq!(ended_with_a_line(2, program_at(desk).args(words)), format!("hdf4: HDF4_DESK {told}"));
        }
        assert_eq!(misused(&[words, &["--desk="][..]].concat()), "hdf4: --desk : not a number from 0 to 4294967295\n");
        assert!(misused(&[words, &["--desk"][..]].concat()).contains(": --desk: its value is missing; usage: hdf4 "));
    }
    assert_eq!(fs::read(&file).unwrap(), before);
}

#[test]
fn a_desk_may_have_to_be_named() {
    let folder = Folder::new("required");
    let (file, before) = (folder.copy_of("elements.hdf"), fs::read(file("elements.hdf")).unwrap());
    let undo = vec!["undo", text(&file)];
    let edits = edits(text(&file));
    for words in edits.iter().chain([&undo]) {
        let told = "hdf4: the desk must be named here, by --desk N (HDF4_DESK is required)\n";
        assert_eq!(ended_with_a_line(2, program_at("required").args(words)), told);
        assert_eq!(fs::read(&file).unwrap(), before);
    }
    for words in &edits {
        ended_as(0, program_at("required").args(words).args(["--desk", "0"]));
        assert_eq!(newest_desk(&file), 0);
    }
    // What does not edit needs no desk.
    for command in ["list", "edits", "grids"] {
        ended_as(0, program_at("required").args([command, text(&file)]));
    }
}

#[test]
fn the_option_may_stand_before_the_command() {
    let folder = Folder::new("before");
    let file = folder.copy_of("elements.hdf");
    granted(&["--desk", "2", "add", text(&file), "40000", "5", "/dev/null"]);
    refused_on(&file, &["--desk=1", "undo", text(&file)], &other_desk(&file, 2, 1));
    refused_on(&file, &["--desk", "2", "undo", "--desk", "3", text(&file)], &other_desk(&file, 2, 3));
    granted(&["--desk=1", "--desk", "2", "undo", text(&file)]);
    for words in [&["--desk"][..], &["--desk", "1"], &["--desk=1"]] {
        assert_eq!(misused(words), "hdf4: a command is missing; hdf4 help names them\n");
    }
    assert!(misused(&["--desk", "1", "list", text(&file)]).contains(": --desk: no such option here; usage: hdf4 "));
    assert!(misused(&["--desks=1", "undo", text(&file)]).contains("--desks=1: no such command"));
}

#[test]
fn what_does_not_edit_is_done_at_no_desk() {
    let path = file("mixed.hdf");
    let commands: [&[&str]; 5] =
        [&["list", &path], &["read", &path, "302", "2"], &["groups", &path], &["values", &path, "5"], &["grid", &path, "2"]];
    for words in commands {
        assert!(misused(&[words, &["--desk", "1"]].concat()).contains(": --desk: no such option here; usage: hdf4 "));
        assert!(program_at("two").args(words).stdout(Stdio::null()).status().unwrap().success(), "{words:?}");
    }
}

/// A file as it arrived, of one element and a free slot, and as a version before 0.3 left it: 40000/5 added, and behind its data a
/// trailer of 32 bytes that names no desk.
fn edited_of_old() -> (Vec<u8>, Vec<u8>) {
    let free = b"\0\x01\0\0\0\0\0\0\0\0\0\0";
    let mut edited = file_of(&[(100, 1, b"hub"), (40000, 5, b"closed")]);
    let (place, length) = (slot(1), edited.len() - b"closed".len());
    let arrived = [&edited[..place], free, &edited[place + free.len()..length]].concat();
    let [place, altered, length, previous] = [place, free.len(), length, 0].map(|number| (number as u32).to_be_bytes());
    edited.extend([&[place, altered].concat(), &free[..], &[length, previous].concat(), b"BACK"].concat());
    (arrived, edited)
}

#[test]
fn edits_of_old_are_those_of_desk_0() {
    let folder = Folder::new("old");
    let (arrived, edited) = edited_of_old();
    let file = folder.holding("snow.hdf", &edited);
    let word = text(&file);
    let place = edited.len() - 32;
    let told = format!("OTHER_DESK: the newest edit is desk 0's, and this is desk 1 (number 30, place {place})\n");
    refused_on(&file, &["undo", "--desk", "1", word], &told);

    // A new edit on top of it has its own desk.
    granted(&["replace", "--desk", "1", word, "40000", "5", "/dev/null"]);
    assert_eq!(fs::read(&file).unwrap().len(), edited.len() + TRAILER);
    refused_on(&file, &["undo", word], &other_desk(&file, 1, 0));
    granted(&["undo", "--desk", "1", word]);
    assert_eq!(fs::read(&file).unwrap(), edited);

    assert_eq!(granted(&["undo", word]), format!("{word}: 37 bytes\n"));
    assert_eq!(fs::read(&file).unwrap(), arrived);
}
