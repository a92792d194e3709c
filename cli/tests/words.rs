//! Runs the built program with right and wrong words: help, options, exit statuses.

mod common;

use common::{failed, file, granted, misused, program, refused, text, Folder};
use std::fs::{self, File};
use std::process::Stdio;

#[test]
fn help_and_version_are_printed() {
    let help = granted(&["help"]);
    assert!(help.starts_with("usage: hdf4 list [--json] FILE\n"));
    for words in [&["--help"][..], &["-h"], &["add", "--help"], &["help", "add"]] {
        assert_eq!(granted(words), help, "{words:?}");
    }
    assert!(help.lines().all(|line| line.chars().count() <= 130));
    assert_eq!(granted(&["--version"]), format!("hdf4 {}\n", env!("CARGO_PKG_VERSION")));
    assert_eq!(granted(&["-V"]), granted(&["--version"]));
}

/// The commands that help names.
fn commands() -> Vec<String> {
    let help = granted(&["help"]);
    let uses = help.lines().map(|line| line.trim_start_matches("usage:").trim()).take_while(|line| line.starts_with("hdf4 "));
    let names = uses.map(|line| line.split(' ').nth(1).unwrap().to_string());
    names.filter(|name| name != "help" && !name.starts_with("--")).collect()
}

#[test]
fn wrong_use_is_told_in_one_line() {
    assert_eq!(misused(&[]), "hdf4: a command is missing; hdf4 help names them\n");
    assert_eq!(misused(&["cut", "x"]), "hdf4: cut: no such command; hdf4 help names them\n");
    assert!(commands().len() > 7);
    for command in &commands() {
        let shown = format!("; usage: hdf4 {command} ");
        for words in [&[&**command][..], &[command, "1", "2", "3", "4", "5", "6"]] {
            let message = misused(words);
            assert!(message.contains("too few words, or too many") && message.contains(&shown), "{message}");
        }
        let message = misused(&[command, "--jsom", "x"]);
        assert!(message.contains(&format!("{command}: --jsom: no such option here; usage: ")), "{message}");
    }
    assert!(misused(&["list", "-x"]).contains("-x: no such option here"));
    assert!(misused(&["list", "--json=1", "x"]).contains("--json: takes no value"));
    assert!(misused(&["read", "x", "1", "2", "--most"]).contains("--most: its value is missing"));
    for most in ["--most=", "--most=-1", "--most=4294967296", "--most=much"] {
        assert!(misused(&["read", "x", "1", "2", most]).contains("not a number from 0 to 4294967295"));
    }
}

#[test]
fn words_that_are_no_numbers_are_told() {
    let folder = Folder::new("numbers");
    let file = folder.copy_of("empty.hdf");
    let before = fs::read(&file).unwrap();
    for number in ["", "-1", "+1", "65536", "0x10000", "0x", "0x+1", "five", "1.0", " 1"] {
        let message = misused(&["remove", text(&file), number, "5"]);
        assert!(message.contains("not a number from 0 to 65535"), "{number}: {message}");
        let message = misused(&["remove", text(&file), "5", number]);
        assert!(message.contains("not a number from 0 to 65535"), "{number}: {message}");
    }
    assert_eq!(fs::read(&file).unwrap(), before);
}

#[test]
fn files_that_cannot_be_read_are_told() {
    let folder = Folder::new("files");
    let file = folder.copy_of("empty.hdf");
    let absent = folder.word("absent");
    let commands: [&[&str]; 5] = [
        &["list", &absent],
        &["read", &absent, "1", "2"],
        &["groups", &absent],
        &["undo", &absent],
        &["add", text(&file), "40000", "5", &absent],
    ];
    for words in commands {
        assert!(failed(words).contains(&format!("{absent}: No such file")));
    }
    assert!(failed(&["list", &folder.word("")]).contains("directory"));
    assert!(failed(&["list", "two\nlines\u{1b}[31m"]).starts_with("hdf4: two\\nlines\\u{1b}[31m: No such file"));
    assert!(misused(&["undo", "-"]).contains("an edit needs a file"));
    assert!(refused(&["list", "/dev/null"]).contains("NOT_HDF"));
}

#[test]
fn words_behind_two_dashes_are_no_options() {
    let folder = Folder::new("dashes");
    fs::copy(file("empty.hdf"), folder.path("--json")).unwrap();
    let output = program().current_dir(folder.path("")).args(["list", "--", "--json"]).output().unwrap();
    assert!(output.status.success());
    assert!(output.stdout.starts_with(b"1 blocks, "));
}

#[test]
fn standard_input_is_read_as_a_file() {
    let given = |words: &[&str], name: &str| {
        let output = program().args(words).stdin(File::open(file(name)).unwrap()).output().unwrap();
        assert!(output.status.success(), "{words:?}");
        String::from_utf8(output.stdout).unwrap()
    };
    assert_eq!(given(&["list", "-"], "elements.hdf"), granted(&["list", &file("elements.hdf")]));
    assert_eq!(given(&["groups", "-"], "vgroups.hdf"), granted(&["groups", &file("vgroups.hdf")]));
    assert_eq!(given(&["values", "-", "2"], "vdata_fields.hdf"), granted(&["values", &file("vdata_fields.hdf"), "2"]));
    assert_eq!(given(&["read", "--hex", "-", "302", "2"], "mixed.hdf").lines().count(), 4);
    let output = program().args(["list", "-"]).stdin(Stdio::null()).output().unwrap();
    let message = String::from_utf8(output.stderr).unwrap();
    assert_eq!(output.status.code(), Some(1));
    assert_eq!(message, "hdf4: standard input: NOT_HDF: this is no HDF4 file (number 2, place 0)\n");
}
