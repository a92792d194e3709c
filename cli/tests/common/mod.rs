//! What the tests share: folders of their own, the real files, and the built program.

// No test file uses all of it.
#![allow(dead_code)]

pub mod files;
pub mod json;
pub mod terminal;

use std::fs;
use std::io::ErrorKind;
use std::os::unix::fs::MetadataExt;
use std::path::{Path, PathBuf};
use std::process::{self, Command, Output};
use std::thread;
use std::time::Duration;

pub const FILES: &str = concat!(env!("CARGO_MANIFEST_DIR"), "/../harness/files");

/// The path of one of the real files, as a word.
pub fn file(name: &str) -> String {
    format!("{FILES}/{name}")
}

/// A folder of one test, removed at its end.
pub struct Folder(PathBuf);

impl Folder {
    pub fn new(test: &str) -> Folder {
        let path = std::env::temp_dir().join(format!("hdf4-cli-{}-{test}", process::id()));
        fs::create_dir(&path).unwrap();
        Folder(path)
    }

    pub fn path(&self, name: &str) -> PathBuf {
        self.0.join(name)
    }

    /// The path of a file in the folder, as a word.
    pub fn word(&self, name: &str) -> String {
        text(&self.path(name)).to_string()
    }

    /// A copy of one of the real files.
    pub fn copy_of(&self, name: &str) -> PathBuf {
        let path = self.path(name);
        fs::copy(file(name), &path).unwrap();
        path
    }

    /// A copy of one of the real files in which the element of the slot at a place is not stored.
    pub fn unstored_copy_of(&self, name: &str, slot: usize) -> PathBuf {
        self.holding(name, &files::unstored(fs::read(file(name)).unwrap(), slot))
    }

    /// A new file with these bytes.
    pub fn holding(&self, name: &str, bytes: &[u8]) -> PathBuf {
        let path = self.path(name);
        fs::write(&path, bytes).unwrap();
        path
    }

    pub fn names(&self) -> Vec<String> {
        let entries = fs::read_dir(&self.0).unwrap();
        let mut names: Vec<String> = entries.map(|entry| entry.unwrap().file_name().into_string().unwrap()).collect();
        names.sort();
        names
    }
}

impl Drop for Folder {
    fn drop(&mut self) {
        let _ = fs::remove_dir_all(&self.0);
    }
}

pub fn text(path: &Path) -> &str {
    path.to_str().unwrap()
}

/// The program, at desk 0 where its words name no other, whoever runs the test.
pub fn program() -> Command {
    let mut program = Command::new(env!("CARGO_BIN_EXE_hdf4"));
    program.env_remove("HDF4_DESK");
    program
}

/// The program at a desk that the environment names.
pub fn program_at(desk: &str) -> Command {
    let mut program = program();
    program.env("HDF4_DESK", desk);
    program
}

/// A command that must succeed; answers the bytes that it printed.
pub fn granted_bytes(words: &[&str]) -> Vec<u8> {
    let Output { status, stdout, stderr } = program().args(words).output().unwrap();
    assert!(status.success(), "{words:?}: {}", String::from_utf8_lossy(&stderr));
    stdout
}

/// A command that must succeed; answers the text that it printed.
pub fn granted(words: &[&str]) -> String {
    String::from_utf8(granted_bytes(words)).unwrap()
}

/// A command that must end with a certain status; answers the text that it printed and its messages.
pub fn ended(status: i32, words: &[&str]) -> (String, String) {
    ended_as(status, program().args(words))
}

pub fn ended_as(status: i32, command: &mut Command) -> (String, String) {
    let output = loop {
        match command.output() {
            // A copy of the program is busy as long as a child of another test has it open for writing.
            Err(e) if e.kind() == ErrorKind::ExecutableFileBusy => thread::sleep(Duration::from_millis(5)),
            output => break output.unwrap(),
        }
    };
    let Output { status: code, stdout, stderr } = output;
    let message = String::from_utf8(stderr).unwrap();
    assert_eq!(code.code(), Some(status), "{command:?}: {message}");
    (String::from_utf8(stdout).unwrap(), message)
}

/// A command that must end with a certain status, print nothing and say why in one line, which it answers.
pub fn ended_with_a_line(status: i32, command: &mut Command) -> String {
    let (printed, message) = ended_as(status, command);
    assert!(printed.is_empty(), "{command:?}");
    assert!(message.starts_with("hdf4: ") && message.ends_with('\n') && message.lines().count() == 1, "{command:?}: {message}");
    message
}

/// A refusal; answers its line.
pub fn refused(words: &[&str]) -> String {
    ended_with_a_line(1, program().args(words))
}

/// A command that must be refused and leave the file as it is, not even written again.
pub fn refused_on(file: &Path, words: &[&str], message: &str) {
    let before = (fs::read(file).unwrap(), fs::metadata(file).unwrap().ino());
    let answer = refused(words);
    assert!(answer.contains(message), "{words:?}: {answer}");
    assert!(answer.contains(text(file)), "{words:?}: {answer}");
    assert_eq!((fs::read(file).unwrap(), fs::metadata(file).unwrap().ino()), before, "{words:?}");
}

/// The desk of a file's newest edit, as its trailer ends.
pub fn newest_desk(file: &Path) -> u32 {
    let bytes = fs::read(file).unwrap();
    let (desk, closing) = bytes[bytes.len() - 8..].split_at(4);
    assert_eq!(closing, b"BAC2");
    u32::from_be_bytes(desk.try_into().unwrap())
}

/// The line that tells a desk that a file's newest edit is another one's.
pub fn other_desk(file: &Path, newest: u32, desk: u32) -> String {
    let place = fs::metadata(file).unwrap().len() - files::TRAILER as u64;
    let whose = format!("the newest edit is desk {newest}'s, and this is desk {desk}");
    format!("hdf4: {}: OTHER_DESK: {whose} (number 30, place {place})\n", text(file))
}

/// Wrong use; answers the line that says so.
pub fn misused(words: &[&str]) -> String {
    ended_with_a_line(2, program().args(words))
}

/// What files or the system do not allow; answers the line that says so.
pub fn failed(words: &[&str]) -> String {
    ended_with_a_line(3, program().args(words))
}
