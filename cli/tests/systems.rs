//! Edits and output on systems whose calls do less: no locks, no exchange of names, slow disks.

mod common;

use common::{ended_as, file, granted, newest_desk, program, text, Folder};
use std::fs::{self, File};
use std::os::unix::fs::MetadataExt;
use std::path::{Path, PathBuf};
use std::process::{Child, Command, Output, Stdio};
use std::thread;
use std::time::{Duration, SystemTime};

fn tag_of(desk: u32) -> String {
    (50000 + desk).to_string()
}

fn marks_of(file: &Path, tag: &str) -> usize {
    granted(&["list", text(file)]).lines().filter(|line| line.starts_with(&format!("tag {tag} "))).count()
}

fn marks(file: &Path) -> usize {
    marks_of(file, "50000")
}

/// A file under the temporary name of a new file, or of one that was to be replaced.
fn left(folder: &Folder, name: impl Fn(u64, i64) -> String) -> String {
    let path = folder.holding("left", b"left");
    let about = fs::metadata(&path).unwrap();
    let name = name(about.ino(), about.mtime() * 1_000_000_000 + about.mtime_nsec());
    fs::rename(&path, folder.path(&name)).unwrap();
    name
}

/// Calls as other systems have them. A call answers an error with the number that its variable has, and with that of `fsync` the disk
/// is slow.
const IMITATION: &str = r#"
#define _GNU_SOURCE
#include <errno.h>
#include <stdlib.h>
#include <sys/syscall.h>
#include <unistd.h>

static int fails(const char *variable) {
    const char *number = getenv(variable);
    if (number) errno = atoi(number);
    return number != 0;
}

int flock(int file, int way) {
    return fails("IMITATED_FLOCK") ? -1 : syscall(SYS_flock, file, way);
}

int renameat2(int from_folder, const char *from, int to_folder, const char *to, unsigned way) {
    if (fails("IMITATED_RENAMEAT2")) return -1;
    return syscall(SYS_renameat2, from_folder, from, to_folder, to, way);
}

int fsync(int file) {
    if (getenv("IMITATED_FSYNC")) sleep(1);
    return syscall(SYS_fsync, file);
}
"#;

const FLOCK: &str = "IMITATED_FLOCK";
const RENAMEAT2: &str = "IMITATED_RENAMEAT2";
const FSYNC: &str = "IMITATED_FSYNC";

const INVALID: &str = "22";
const NO_LOCKS: &str = "37";
const NO_SUCH_CALL: &str = "38";

/// What variables say of a system.
type System = Vec<(&'static str, &'static str)>;

/// Locks that work and that fail, each with and without an exchange.
fn systems() -> Vec<System> {
    let locks = [None, Some((FLOCK, NO_SUCH_CALL)), Some((FLOCK, NO_LOCKS))];
    let renames = [None, Some((RENAMEAT2, INVALID)), Some((RENAMEAT2, NO_SUCH_CALL))];
    locks.iter().flat_map(|lock| renames.map(|rename| lock.iter().copied().chain(rename).collect())).collect()
}

/// The imitation, in a folder of its own.
struct Imitation {
    object: PathBuf,
    _folder: Folder,
}

impl Imitation {
    fn new(test: &str) -> Imitation {
        let folder = Folder::new(&format!("{test}-imitation"));
        let (source, object) = (folder.holding("calls.c", IMITATION.as_bytes()), folder.path("calls.so"));
        let words = ["-Wall", "-Werror", "-shared", "-fPIC", text(&source), "-o", text(&object)];
        ended_as(0, Command::new("gcc").args(words));
        Imitation { object, _folder: folder }
    }

    /// The program on a system.
    fn program(&self, system: &System) -> Command {
        let mut program = program();
        program.env("LD_PRELOAD", &self.object).envs(system.iter().copied());
        program
    }
}

/// Starts edits of two desks at once, so many of each, and waits for them.
fn edit_at_once(imitation: &Imitation, system: &System, file: &Path, edits: usize) {
    let start = |number: usize| {
        let desk = 1 + number as u32 % 2;
        let words = ["add", "--desk", &desk.to_string(), text(file), &tag_of(desk), &(1 + number).to_string(), "/dev/null"];
        imitation.program(system).args(words).stdout(Stdio::null()).stderr(Stdio::piped()).spawn().unwrap()
    };
    let children: Vec<Child> = (0..2 * edits).map(start).collect();
    for child in children {
        let Output { status, stderr, .. } = child.wait_with_output().unwrap();
        assert!(status.success() && stderr.is_empty(), "{system:?}: {}", String::from_utf8_lossy(&stderr));
    }
}

#[test]
fn no_edit_is_lost_where_locks_or_exchanges_do_not_work() {
    let imitation = Imitation::new("systems");
    let folder = Folder::new("systems");
    let edits = 12;
    for system in systems() {
        let file = folder.copy_of("elements.hdf");
        let before = fs::read(&file).unwrap();
        edit_at_once(&imitation, &system, &file, edits);
        assert_eq!([1, 2].map(|desk| marks_of(&file, &tag_of(desk))), [edits; 2], "{system:?}");
        assert_eq!(folder.names(), ["elements.hdf"], "{system:?}");
        for _ in 0..2 * edits {
            let newest = newest_desk(&file).to_string();
            ended_as(0, imitation.program(&system).args(["undo", "--desk", &newest, text(&file)]));
        }
        assert_eq!(fs::read(&file).unwrap(), before, "{system:?}");
        assert_eq!(folder.names(), ["elements.hdf"], "{system:?}");
    }
}

/// An edit must wait as long as something is held.
fn check_that_it_waits<T>(mut edit: Child, held: T, release: impl FnOnce(T)) {
    thread::sleep(Duration::from_millis(100));
    assert!(edit.try_wait().unwrap().is_none(), "it did not wait");
    release(held);
    assert!(edit.wait().unwrap().success());
}

#[test]
fn an_edit_waits_for_the_lock_or_else_for_the_lock_file() {
    let imitation = Imitation::new("waits");
    let folder = Folder::new("waits");
    let file = folder.copy_of("elements.hdf");
    let add = |system: &System, number: &str| {
        let words = ["add", text(&file), "50000", number, "/dev/null"];
        imitation.program(system).args(words).stdout(Stdio::null()).spawn().unwrap()
    };
    let (locks, no_locks) = ([vec![], vec![(RENAMEAT2, INVALID)]], vec![(FLOCK, NO_LOCKS)]);
    for (system, number) in locks.iter().zip(["1", "2"]) {
        let held = File::open(&file).unwrap();
        held.lock().unwrap();
        check_that_it_waits(add(system, number), held, drop);
    }
    let lock_file = folder.holding(".hdf4-elements.hdf.lock", b"");
    // Where the file can be locked, a lock file is nothing to an edit.
    assert!(add(&locks[0], "3").wait().unwrap().success());
    check_that_it_waits(add(&no_locks, "4"), lock_file, |lock_file| fs::remove_file(lock_file).unwrap());
    assert_eq!((folder.names(), marks(&file)), (vec!["elements.hdf".to_string()], 4));
}

/// Whether a signal is ignored by whoever started this test, as HUP is under nohup; the programs that it starts ignore it too.
fn is_ignored(signal: u32) -> bool {
    let status = fs::read_to_string("/proc/self/status").unwrap();
    let ignored = status.lines().find_map(|line| line.strip_prefix("SigIgn:")).unwrap();
    u64::from_str_radix(ignored.trim(), 16).unwrap() >> (signal - 1) & 1 == 1
}

/// A person who ends an edit in the middle, while the disk is slow. One that has a lock file is done first.
#[test]
fn an_edit_that_is_ended_leaves_no_lock_file() {
    let imitation = Imitation::new("ended");
    for (signal, number) in [("INT", 2), ("TERM", 15), ("HUP", 1)] {
        if is_ignored(number) {
            continue;
        }
        let folder = Folder::new("ended");
        let file = folder.copy_of("elements.hdf");
        let system = vec![(FLOCK, NO_LOCKS), (FSYNC, "")];
        let words = ["add", text(&file), "50000", "1", "/dev/null"];
        let mut edit = imitation.program(&system).args(words).stdout(Stdio::null()).spawn().unwrap();
        let lock_file = folder.path(".hdf4-elements.hdf.lock");
        while !lock_file.exists() {
            assert!(edit.try_wait().unwrap().is_none(), "it had no lock file");
            thread::sleep(Duration::from_millis(1));
        }
        ended_as(0, Command::new("sh").args(["-c", &format!("kill -{signal} {}", edit.id())]));
        assert_eq!(edit.wait().unwrap().code(), None, "it was not ended");
        assert_eq!((folder.names(), marks(&file)), (vec!["elements.hdf".to_string()], 1), "{signal}");
    }
}

#[test]
fn where_locks_tell_nothing_only_old_files_are_removed() {
    let imitation = Imitation::new("age");
    for system in [vec![(FLOCK, NO_SUCH_CALL)], vec![(FLOCK, NO_LOCKS)]] {
        let folder = Folder::new("age");
        let file = folder.copy_of("elements.hdf");
        let names = [0, 1, 2, 59, 61, 120].map(|minutes| {
            let name = left(&folder, |number, _| format!(".hdf4-{number}-5-6.tmp"));
            let time = SystemTime::now() - Duration::from_secs(60 * minutes);
            File::options().write(true).open(folder.path(&name)).unwrap().set_modified(time).unwrap();
            name
        });
        ended_as(1, imitation.program(&system).args(["undo", text(&file)]));
        let mut expected = [&names[..4], &["elements.hdf".to_string()]].concat();
        expected.sort();
        assert_eq!(folder.names(), expected, "{system:?}");
    }
}

#[test]
fn output_goes_to_a_file_on_every_system() {
    let imitation = Imitation::new("output");
    for system in systems() {
        let folder = Folder::new("output");
        let source = file("mixed.hdf");
        for words in [&["read", &source, "302", "2"][..], &["grid", &source, "2"]] {
            let out = folder.word(words[0]);
            let bytes = imitation.program(&system).args(words).output().unwrap().stdout;
            // To a new file, and to one that is there.
            for _ in 0..2 {
                let said = ended_as(0, imitation.program(&system).args(words).arg(&out)).0;
                assert_eq!(said, format!("{out}: {} bytes\n", bytes.len()), "{system:?}");
                assert_eq!(fs::read(&out).unwrap(), bytes, "{system:?}");
                fs::write(&out, b"something else").unwrap();
            }
        }
        assert_eq!(folder.names(), ["grid", "read"], "{system:?}");
    }
}
