//! Runs the built program where output goes to files, devices and terminals: what it says is so.

mod common;

use common::files::TRAILER;
use common::terminal::on_a_terminal;
use common::{ended_as, file, granted, granted_bytes, misused, program, text, Folder};
use std::fs::{self, File};
use std::os::unix::fs::symlink;
use std::process::{Command, Stdio};

/// An element of 63 bytes that are no text.
const IMAGE: [&str; 2] = ["302", "2"];

fn words<'a>(path: &'a str, out: &[&'a str]) -> Vec<&'a str> {
    [&["read", path], &IMAGE[..], out].concat()
}

#[test]
fn the_file_that_is_read_is_not_overwritten() {
    let folder = Folder::new("source");
    let path = folder.copy_of("mixed.hdf");
    let before = fs::read(&path).unwrap();
    symlink("mixed.hdf", folder.path("symbolic")).unwrap();
    fs::hard_link(&path, folder.path("hard")).unwrap();
    for out in ["mixed.hdf", "symbolic", "hard"] {
        let message = misused(&words(text(&path), &[&folder.word(out)]));
        assert!(message.contains("this is the file that is read"), "{message}");
        assert_eq!(fs::read(&path).unwrap(), before);
        // Standard input is that file too.
        let mut read = program();
        read.args(words("-", &[&folder.word(out)])).stdin(File::open(&path).unwrap());
        assert!(ended_as(2, &mut read).1.contains("this is the file that is read"));
        assert_eq!(fs::read(&path).unwrap(), before);
    }
}

#[test]
fn a_pipe_is_written_to_where_it_stands() {
    let folder = Folder::new("fifo");
    let pipe = folder.path("pipe");
    assert!(Command::new("mkfifo").arg(&pipe).status().unwrap().success());
    let read = std::thread::spawn({
        let pipe = pipe.clone();
        move || fs::read(pipe).unwrap()
    });
    granted(&words(&file("mixed.hdf"), &[text(&pipe)]));
    assert_eq!(read.join().unwrap().len(), 63);
}

#[test]
fn no_open_file_that_is_read_is_written_to() {
    let folder = Folder::new("open");
    let path = folder.copy_of("mixed.hdf");
    let before = fs::read(&path).unwrap();
    for script in [
        r#""$0" read "$1" 302 2 /dev/fd/3 3<>"$1""#,
        r#""$0" read - 302 2 /dev/fd/3 3<>"$1" <"$1""#,
        r#""$0" read "$1" 302 2 1<>"$1""#,
        r#""$0" read "$1" 302 2 - >>"$1""#,
        r#""$0" list "$1" >>"$1""#,
        r#""$0" grid - 2 <"$1" >>"$1""#,
    ] {
        let words = ["-c", script, env!("CARGO_BIN_EXE_hdf4"), text(&path)];
        let (_, message) = ended_as(2, Command::new("bash").args(words));
        assert!(message.contains("this is the file that is read"), "{script}: {message}");
        assert_eq!(fs::read(&path).unwrap(), before, "{script}");
    }
}

#[test]
fn what_the_program_was_started_with_is_written_where_it_stands() {
    let folder = Folder::new("descriptor");
    let (path, out) = (file("mixed.hdf"), folder.path("out"));
    let script = r#"{ echo before >&3; "$0" read "$1" 302 2 /dev/fd/3 >&2; echo behind >&3; } 3>"$2""#;
    let words = ["-c", script, env!("CARGO_BIN_EXE_hdf4"), &path, text(&out)];
    assert!(ended_as(0, Command::new("bash").args(words)).1.contains("/dev/fd/3: 63 bytes"));
    let bytes = granted_bytes(&["read", &path, "302", "2"]);
    assert_eq!(fs::read(&out).unwrap(), [b"before\n", &bytes[..], b"behind\n"].concat());
}

#[test]
fn a_limit_on_the_length_of_files_is_told() {
    let folder = Folder::new("limit");
    let (path, data) = (folder.copy_of("empty.hdf"), folder.holding("data", &vec![0x2a; 1 << 20]));
    let before = fs::read(&path).unwrap();
    let script = r#"ulimit -f 1; exec "$0" add "$1" 40000 5 "$2""#;
    let words = ["-c", script, env!("CARGO_BIN_EXE_hdf4"), text(&path), text(&data)];
    let (_, message) = ended_as(3, Command::new("bash").args(words));
    assert!(message.contains("File too large"), "{message}");
    assert_eq!(fs::read(&path).unwrap(), before);
    assert_eq!(folder.names(), ["data", "empty.hdf"]);
}

#[test]
fn devices_and_standard_output_are_written_to() {
    let path = file("mixed.hdf");
    let bytes = granted_bytes(&words(&path, &[]));
    assert_eq!(bytes.len(), 63);
    for out in ["-", "/dev/stdout", "/dev/fd/1"] {
        assert_eq!(granted_bytes(&words(&path, &[out])), bytes, "{out}");
    }
    assert_eq!(granted(&words(&path, &["/dev/null"])), "/dev/null: 63 bytes\n");

    // Behind what is there already, as the shell's >> does it.
    let folder = Folder::new("stdout");
    let out = folder.holding("out", b"before");
    let appended = File::options().append(true).open(&out).unwrap();
    assert!(program().args(words(&path, &["/dev/stdout"])).stdout(appended).status().unwrap().success());
    assert_eq!(fs::read(&out).unwrap(), [&b"before"[..], &bytes].concat());

    let message = ended_as(3, program().args(words(&path, &["/dev/full"]))).1;
    assert!(message.contains("/dev/full: "), "{message}");
    let message = ended_as(3, program().args(words(&path, &["/"]))).1;
    assert!(message.contains("/: "), "{message}");
}

#[test]
fn an_edit_that_cannot_be_told_of_is_done_all_the_same() {
    let folder = Folder::new("full");
    let path = folder.copy_of("empty.hdf");
    let before = fs::read(&path).unwrap().len();
    let full = || File::options().write(true).open("/dev/full").unwrap();
    let add = ["add", text(&path), "40000", "5", "/dev/null"];
    let output = program().args(add).stdout(full()).output().unwrap();
    assert_eq!(output.status.code(), Some(0));
    let message = String::from_utf8(output.stderr).unwrap();
    assert!(message.contains(&format!("it has changed, to {} bytes", before + TRAILER)), "{message}");
    assert_eq!(fs::read(&path).unwrap().len(), before + TRAILER);

    // A message that cannot be written changes nothing about the status.
    let status = program().args(add).stderr(full()).status().unwrap();
    assert_eq!(status.code(), Some(1));

    // What only prints has failed where it could not.
    let output = program().args(["list", text(&path)]).stdout(full()).output().unwrap();
    assert_eq!(output.status.code(), Some(3));
    assert!(String::from_utf8(output.stderr).unwrap().contains("standard output: "));
}

#[test]
fn a_reader_who_has_enough_is_no_fault() {
    let folder = Folder::new("pipe");
    let (path, data) = (folder.copy_of("empty.hdf"), folder.holding("data", &vec![0x2a; 1 << 20]));
    granted(&["add", text(&path), "40000", "5", text(&data)]);
    let script = r#""$0" read --hex "$1" 40000 5 | head -n 1; echo "${PIPESTATUS[0]}""#;
    let output = Command::new("bash").args(["-c", script, env!("CARGO_BIN_EXE_hdf4"), text(&path)]).output().unwrap();
    assert!(output.stderr.is_empty());
    let printed = String::from_utf8(output.stdout).unwrap();
    assert!(printed.starts_with("00000000  2a ") && printed.ends_with("|\n0\n"), "{printed}");
}

#[test]
fn raw_bytes_go_to_a_terminal_only_if_asked_for() {
    let folder = Folder::new("terminal");
    let path = folder.copy_of("mixed.hdf");
    let path = text(&path);
    let (status, seen) = on_a_terminal(program().args(words(path, &[])));
    assert_eq!(status, 2, "{seen}");
    assert!(seen.starts_with("hdf4: ") && seen.contains("terminal") && seen.lines().count() == 1, "{seen}");

    let (status, _) = on_a_terminal(program().args(words(path, &["-"])));
    assert_eq!(status, 0);
    let (status, seen) = on_a_terminal(program().args(["read", "--hex", path, "302", "2"]));
    assert_eq!((status, seen.lines().count()), (0, 4), "{seen}");

    let mark = folder.holding("mark", "Pass gesperrt: Schnee, Höhe 2\u{a0}m\n".as_bytes());
    granted(&["add", path, "40000", "5", text(&mark)]);
    let (status, seen) = on_a_terminal(program().args(["read", path, "40000", "5"]));
    assert_eq!((status, &*seen), (0, "Pass gesperrt: Schnee, Höhe 2\u{a0}m\n"));
    let escape = folder.holding("escape", b"\x1b]0;title\x07");
    granted(&["replace", path, "40000", "5", text(&escape)]);
    assert_eq!(on_a_terminal(program().args(["read", path, "40000", "5"])).0, 2);
}

#[test]
fn a_terminal_tells_that_an_edit_waits() {
    let folder = Folder::new("waits");
    let path = folder.copy_of("empty.hdf");
    let held = File::open(&path).unwrap();
    held.lock().unwrap();
    let release = std::thread::spawn(move || {
        std::thread::sleep(std::time::Duration::from_millis(200));
        drop(held);
    });
    let mut command = program();
    command.args(["add", text(&path), "40000", "5", "/dev/null"]).stdin(Stdio::null());
    let (status, seen) = on_a_terminal(&mut command);
    release.join().unwrap();
    assert_eq!(status, 0);
    assert!(seen.contains("waiting until another edit is done\n"), "{seen}");
}
