//! Getting the program: bin/hdf4 builds what is older than its sources and nothing else, and what bin/install puts in a folder is
//! enough for programs in C and C++.

mod common;

use common::{file, text, Folder};
use std::collections::BTreeSet;
use std::env;
use std::ffi::OsString;
use std::fs::{self, File};
use std::io::Write;
use std::os::unix::fs::{symlink, MetadataExt};
use std::path::{Path, PathBuf};
use std::process::{Command, Output, Stdio};
use std::sync::Once;
use std::thread;
use std::time::{Duration, SystemTime};

const TOP: &str = concat!(env!("CARGO_MANIFEST_DIR"), "/..");

/// What bin/hdf4 needs of a system where everything is built.
const TOOLS: [&str; 6] = ["find", "flock", "mkdir", "mv", "readlink", "touch"];

/// What a command printed, which must succeed.
fn printed(command: &mut Command) -> String {
    let Output { status, stdout, stderr } = command.output().unwrap();
    assert!(status.success(), "{command:?}: {}", String::from_utf8_lossy(&stderr));
    String::from_utf8(stdout).unwrap()
}

/// The one line of complaint of a command that must end with a status and print nothing.
fn complaint(command: &mut Command, code: i32) -> String {
    let Output { status, stdout, stderr } = command.output().unwrap();
    let message = String::from_utf8(stderr).unwrap();
    assert_eq!((status.code(), &stdout[..]), (Some(code), &b""[..]), "{command:?}: {message}");
    assert_eq!(message.lines().count(), 1, "{message}");
    message
}

/// Writes a script. Another process does it: one that a test beside this starts could hold the file open, and it would not run.
fn script(path: &Path, text: &str) {
    let mut writer =
        Command::new("/bin/sh").args(["-c", "cat >\"$0\" && chmod 755 \"$0\""]).arg(path).stdin(Stdio::piped()).spawn().unwrap();
    writer.stdin.take().unwrap().write_all(text.as_bytes()).unwrap();
    assert!(writer.wait().unwrap().success());
}

/// A folder that has the system's tools and neither cargo nor rt.
fn bare_tools(folder: &Folder) -> PathBuf {
    let tools = folder.path("tools");
    fs::create_dir(&tools).unwrap();
    let path = env::var_os("PATH").unwrap();
    for name in TOOLS {
        let found = env::split_paths(&path).map(|part| part.join(name)).find(|tool| tool.is_file());
        symlink(found.expect(name), tools.join(name)).unwrap();
    }
    tools
}

// A small tree: the real scripts with sources of nothing, and builders that only note that they were called.

const RT: &str = "echo rt >>calls; mkdir -p crates/hdf4/out; echo >crates/hdf4/out/libhdf4.a";
const CARGO: &str = "echo cargo >>calls; cp program cli/target/release/hdf4";
const SOURCES: [&str; 8] = [
    "crates.txt",
    "crates/one/src/lib.rt",
    "crates/one/specs/Rules.antt",
    "crates/one/proofs/open/Proof.antt",
    "cli/src/main.rs",
    "cli/Cargo.toml",
    "bindings/rust/src/lib.rs",
    "bindings/rust/sys/src/lib.rs",
];

struct Tree {
    folder: Folder,
    tools: PathBuf,
}

impl Tree {
    fn new(test: &str) -> Tree {
        let folder = Folder::new(test);
        let tree = Tree { tools: bare_tools(&folder), folder };
        for source in SOURCES {
            fs::create_dir_all(tree.path(source).parent().unwrap()).unwrap();
            fs::write(tree.path(source), "").unwrap();
        }
        for folder in ["bin", "builders", "cli/target/release", "crates/hdf4"] {
            fs::create_dir_all(tree.path(folder)).unwrap();
        }
        for name in ["bin/hdf4", "bin/build.sh"] {
            script(&tree.path(name), &fs::read_to_string(Path::new(TOP).join(name)).unwrap());
        }
        script(&tree.path("program"), "#!/bin/sh\necho ran \"$@\"; while read -r line; do echo \"$line\"; done");
        for tool in ["cp", "grep", "tee"] {
            symlink(Path::new("/bin").join(tool), tree.path("builders").join(tool)).unwrap();
        }
        tree.builders(RT, CARGO);
        tree
    }

    fn path(&self, name: &str) -> PathBuf {
        self.folder.path(name)
    }

    fn builders(&self, rt: &str, cargo: &str) {
        // It is called in the folder of the crate.
        script(&self.path("builders/rt"), &format!("#!/bin/sh\ncd ../..\n{rt}\n"));
        script(&self.path("builders/cargo"), &format!("#!/bin/sh\n{cargo}\n"));
    }

    /// bin/hdf4 by a path, with rt and cargo.
    fn call(&self, program: &Path) -> Command {
        let mut command = self.bare(program);
        command.env("PATH", self.with_builders());
        command
    }

    /// The PATH with rt and cargo.
    fn with_builders(&self) -> OsString {
        env::join_paths([&self.path("builders"), &self.tools]).unwrap()
    }

    /// bin/hdf4 by a path, without rt and cargo.
    fn bare(&self, program: &Path) -> Command {
        let mut command = Command::new(program);
        command.args(["list", "a b"]).env("PATH", &self.tools).stdin(Stdio::null());
        command
    }

    /// A call that must run the program; answers which builders it called.
    fn built(&self) -> Vec<String> {
        assert_eq!(printed(&mut self.call(&self.path("bin/hdf4"))), "ran list a b\n");
        self.calls()
    }

    /// The builders that were called since the last look.
    fn calls(&self) -> Vec<String> {
        let calls = fs::read_to_string(self.path("calls")).unwrap_or_default();
        let _ = fs::remove_file(self.path("calls"));
        calls.lines().map(str::to_string).collect()
    }

    fn change(&self, name: &str) {
        // Times on disk go by ticks of some milliseconds.
        thread::sleep(Duration::from_millis(20));
        File::options().write(true).open(self.path(name)).unwrap().set_modified(SystemTime::now()).unwrap();
    }
}

#[test]
fn only_what_is_older_than_its_sources_is_built() {
    let tree = Tree::new("older");
    assert_eq!(tree.built(), ["rt", "cargo"]);
    assert!(tree.built().is_empty());
    for source in SOURCES {
        tree.change(source);
        let builders: &[&str] = if source.starts_with("crates") { &["rt", "cargo"] } else { &["cargo"] };
        assert_eq!(tree.built(), builders, "{source}");
        assert!(tree.built().is_empty(), "{source}");
    }
    tree.change("target/staticlib/libhdf4.a");
    assert_eq!(tree.built(), ["cargo"]);
    for lost in ["target/staticlib/libhdf4.a", "crates/one/proofs/open/Proof.antt"] {
        thread::sleep(Duration::from_millis(20));
        fs::remove_file(tree.path(lost)).unwrap();
        assert_eq!(tree.built(), ["rt", "cargo"], "{lost}");
    }
    fs::remove_file(tree.path("cli/target/release/hdf4")).unwrap();
    assert_eq!(tree.built(), ["cargo"]);
    assert!(tree.built().is_empty());
}

#[test]
fn what_is_built_needs_no_builders_and_what_is_not_says_so() {
    let tree = Tree::new("builders");
    let program = tree.path("bin/hdf4");
    assert!(complaint(&mut tree.bare(&program), 3).contains("rt is not on PATH"));
    assert!(complaint(tree.bare(&program).env("PATH", ""), 3).contains("find is not on PATH"));
    tree.built();
    assert_eq!(printed(&mut tree.bare(&program)), "ran list a b\n");
    tree.change("cli/src/main.rs");
    assert!(complaint(&mut tree.bare(&program), 3).contains("cargo is not on PATH"));
    tree.change("crates/one/src/lib.rt");
    assert!(complaint(&mut tree.bare(&program), 3).contains("rt is not on PATH"));
    assert_eq!(tree.built(), ["rt", "cargo"]);
    assert_eq!(printed(&mut tree.bare(&program)), "ran list a b\n");
}

#[test]
fn a_build_that_fails_is_tried_again() {
    let tree = Tree::new("fails");
    let program = tree.path("bin/hdf4");
    let fails = |named: &str| {
        let Output { status, stdout, stderr } = tree.call(&program).output().unwrap();
        assert_eq!((status.code(), &stdout[..]), (Some(3), &b""[..]));
        let said = String::from_utf8(stderr).unwrap();
        let last = said.lines().last().unwrap();
        assert!(last.starts_with(&format!("hdf4: the {named} could not be built")), "{said}");
    };
    tree.builders("false", CARGO);
    fails("library");
    tree.builders(RT, "exit 101");
    fails("program");
    fails("program");
    tree.builders(RT, CARGO);
    assert_eq!(tree.built(), ["rt", "cargo"]);
}

#[test]
fn a_source_that_changes_during_a_build_is_built_next_time() {
    let tree = Tree::new("during");
    let slowly = |builder: &str, source: &str| format!("sleep 0.05; echo >>{source}; {builder}");
    symlink("/bin/sleep", tree.tools.join("sleep")).unwrap();
    tree.builders(&slowly(RT, SOURCES[1]), CARGO);
    assert_eq!(tree.built(), ["rt", "cargo"]);
    tree.builders(RT, &slowly(CARGO, SOURCES[4]));
    assert_eq!(tree.built(), ["rt", "cargo"]);
    tree.builders(RT, CARGO);
    assert_eq!(tree.built(), ["cargo"]);
    assert!(tree.built().is_empty());
}

#[test]
fn first_calls_at_once_build_once() {
    let tree = Tree::new("at-once");
    symlink("/bin/sleep", tree.tools.join("sleep")).unwrap();
    tree.builders(&format!("sleep 0.2; {RT}"), &format!("sleep 0.1; {CARGO}"));
    // By a path from the folder above.
    let root = tree.path("bin").parent().unwrap().to_path_buf();
    let call = || {
        let mut command = Command::new("/bin/sh");
        command.args(["-c", "cd \"$0/..\" && exec \"${0##*/}/bin/hdf4\""]).arg(&root).env("PATH", tree.with_builders());
        command.stdin(Stdio::null()).stdout(Stdio::null()).stderr(Stdio::null()).spawn().unwrap()
    };
    let mut calls: Vec<_> = (0..5).map(|_| call()).collect();
    assert!(calls.iter_mut().all(|call| call.wait().unwrap().success()));
    assert_eq!(tree.calls(), ["rt", "cargo"]);
}

#[test]
fn a_link_leads_to_the_program_and_input_reaches_it() {
    let tree = Tree::new("link");
    let elsewhere = tree.path("else where");
    fs::create_dir(&elsewhere).unwrap();
    symlink("../bin/hdf4", elsewhere.join("snow")).unwrap();
    symlink("snow", elsewhere.join("again")).unwrap();
    symlink(tree.path("bin"), elsewhere.join("folder")).unwrap();
    for name in ["snow", "again", "folder/hdf4"] {
        for builders in [&["rt", "cargo"][..], &[]] {
            assert_eq!(printed(tree.call(&elsewhere.join(name)).current_dir("/")), "ran list a b\n", "{name}");
            assert_eq!(tree.calls(), builders, "{name}");
        }
        tree.change("crates.txt");
    }
    tree.built();
    let by_name = ["-c", "cd bin && sh hdf4 list"];
    assert_eq!(printed(Command::new("/bin/sh").args(by_name).current_dir(tree.path("")).stdin(Stdio::null())), "ran list\n");

    // Where a user has folders for `cd` to look in, it is not led there.
    fs::create_dir_all(elsewhere.join("bin")).unwrap();
    for folders in [tree.path(""), elsewhere.clone()] {
        let mut call = tree.call(Path::new("bin/hdf4"));
        assert_eq!(printed(call.current_dir(tree.path("")).env("CDPATH", &folders)), "ran list a b\n");
    }
    assert!(!elsewhere.join("target").exists());

    // A build before it takes nothing of the input.
    tree.builders(&format!("read -r line; {RT}"), &format!("read -r line; {CARGO}"));
    tree.change("crates.txt");
    let mut call = tree.call(&elsewhere.join("snow"));
    let mut child = call.stdin(Stdio::piped()).stdout(Stdio::piped()).stderr(Stdio::null()).spawn().unwrap();
    child.stdin.take().unwrap().write_all(b"road\n").unwrap();
    assert_eq!(child.wait_with_output().unwrap().stdout, b"ran list a b\nroad\n");
}

// The real tree.

/// Builds what is to be installed, once, so that no test waits for another's build and sees what it says.
fn build() {
    static BUILT: Once = Once::new();
    BUILT.call_once(|| drop(printed(Command::new(Path::new(TOP).join("bin/hdf4")).arg("--version"))));
}

/// The name by which programs load the shared library: before version 1 with the second number.
fn soname() -> String {
    let version = fs::read_to_string(Path::new(TOP).join("VERSION")).unwrap();
    let numbers: Vec<&str> = version.trim().split('.').collect();
    format!("libhdf4.so.{}", numbers[..if numbers[0] == "0" { 2 } else { 1 }].join("."))
}

fn install(prefix: &Path) -> Command {
    build();
    let mut command = Command::new(Path::new(TOP).join("bin/install"));
    command.arg(prefix);
    command
}

/// A field or a variable of the installed file for pkg-config, with what it refers to filled in.
fn by_hand(prefix: &Path, name: &str) -> String {
    let lines = fs::read_to_string(prefix.join("lib/pkgconfig/hdf4.pc")).unwrap();
    let value = |name: &str| {
        let line = lines.lines().find_map(|line| line.strip_prefix(name)?.strip_prefix([':', '=']));
        line.unwrap_or_else(|| panic!("{name}: not in {lines}")).trim().to_string()
    };
    let filled = ["includedir", "libdir", "prefix"]
        .iter()
        .fold(value(name), |text, inner| text.replace(&format!("${{{inner}}}"), &value(inner)));
    filled.replace('"', "")
}

/// What pkg-config says of the installed library or, where there is no pkg-config, what its file says.
fn package(prefix: &Path, words: &[&str], name: &str) -> Vec<String> {
    let mut command = Command::new("pkg-config");
    command.args(words).arg("hdf4").env("PKG_CONFIG_PATH", prefix.join("lib/pkgconfig"));
    let said = match command.output() {
        Ok(output) => String::from_utf8(output.stdout).unwrap(),
        Err(_) => by_hand(prefix, name),
    };
    let said: Vec<String> = said.split_whitespace().map(str::to_string).collect();
    assert_eq!(said, by_hand(prefix, name).split_whitespace().collect::<Vec<_>>(), "{words:?}");
    said
}

#[test]
fn programs_are_built_from_what_is_installed() {
    let folder = Folder::new("install");
    let prefix = folder.path("new/prefix");
    let said = printed(&mut install(&prefix));
    for name in
        ["bin/hdf4", "include/hdf4.h", "lib/libhdf4.a", "lib/libhdf4.so", "lib/pkgconfig/hdf4.pc", "share/man/man1/hdf4.1"]
    {
        assert!(said.contains(text(&prefix.join(name))), "{name}: {said}");
        assert!(prefix.join(name).is_file(), "{name}");
    }
    let version = fs::read_to_string(Path::new(TOP).join("VERSION")).unwrap();
    assert_eq!(package(&prefix, &["--modversion"], "Version"), [version.trim()]);
    let soname = soname();
    assert_eq!(fs::read_link(prefix.join("lib/libhdf4.so")).unwrap(), Path::new(&soname));
    assert_eq!(fs::read_link(prefix.join("lib").join(&soname)).unwrap(), Path::new(&format!("libhdf4.so.{}", version.trim())));

    // The example, away from the tree, with the archive and with the shared library.
    fs::copy(Path::new(TOP).join("examples/closure.c"), folder.path("closure.c")).unwrap();
    let cflags = package(&prefix, &["--cflags"], "Cflags");
    let archive = format!("{}/libhdf4.a", package(&prefix, &["--variable=libdir"], "libdir")[0]);
    let shared = package(&prefix, &["--libs"], "Libs");
    let gcc = |out: &str, libs: &[String]| {
        let mut command = Command::new("gcc");
        command.args(["-std=c99", "-Wall", "-Werror", "closure.c", "-o", out]).args(&cflags).args(libs);
        printed(command.current_dir(folder.path("")));
    };
    gcc("with_archive", &[archive]);
    gcc("with_shared", &shared);
    let closed = printed(&mut Command::new(folder.path("with_archive")));
    assert!(closed.contains("viewed: pass road closed: snow\n"), "{closed}");
    assert!(!Command::new(folder.path("with_shared")).env_remove("LD_LIBRARY_PATH").output().unwrap().status.success());
    let by_library = printed(Command::new(folder.path("with_shared")).env("LD_LIBRARY_PATH", prefix.join("lib")));
    assert_eq!(by_library, closed);

    folder.holding(
        "letter.cc",
        b"#include <hdf4.h>\nint main() { return hdf4_open((const uint8_t *)\"letter\", 6).number != HDF4_NOT_HDF; }",
    );
    let mut cc = Command::new("g++");
    cc.args(["-Wall", "-Werror", "letter.cc", "-o", "letter"]).args(&cflags).args(&shared).current_dir(folder.path(""));
    printed(&mut cc);
    printed(Command::new(folder.path("letter")).env("LD_LIBRARY_PATH", prefix.join("lib")));

    // The program, without anything beside it.
    let listed = printed(Command::new(prefix.join("bin/hdf4")).env_clear().args(["list", &file("elements.hdf")]));
    assert!(listed.starts_with("1 block"), "{listed}");

    // Installed again: every file is a new one, and no other is left.
    let names =
        |folder: &str| -> BTreeSet<_> { fs::read_dir(prefix.join(folder)).unwrap().map(|e| e.unwrap().file_name()).collect() };
    let before = (names("lib"), names("bin"));
    let running = File::open(prefix.join("bin/hdf4")).unwrap();
    assert_eq!(printed(&mut install(&prefix)), said);
    assert_eq!((names("lib"), names("bin")), before);
    assert_eq!(running.metadata().unwrap().nlink(), 0);

    // The tree is built by now: a link to it needs neither cargo nor rt.
    let link = folder.path("link");
    symlink(Path::new(TOP).join("bin/hdf4"), &link).unwrap();
    let mut bare = Command::new(&link);
    bare.args(["list", &file("elements.hdf")]).env("PATH", bare_tools(&folder)).current_dir("/");
    assert_eq!(printed(&mut bare), listed);
}

#[test]
fn the_shared_library_shows_the_functions_of_the_header_alone() {
    let folder = Folder::new("shared");
    printed(&mut install(&folder.path("prefix")));
    let library = folder.path("prefix/lib/libhdf4.so");
    let symbols = printed(Command::new("nm").args(["-D", "--format=posix"]).arg(&library));
    let shown: BTreeSet<&str> = symbols.lines().map(|line| line.split(' ').next().unwrap()).collect();
    let header = fs::read_to_string(folder.path("prefix/include/hdf4.h")).unwrap();
    // A declaration begins with the type of the answer. What the header defines itself is static.
    let declarations = header.lines().filter(|line| line.starts_with("hdf4_"));
    let declared: BTreeSet<&str> = declarations.filter_map(|line| line.split([' ', '(']).nth(1)).collect();
    assert!(declared.len() > 20);
    assert_eq!(shown, declared);
    let parts = printed(Command::new("readelf").args(["-dlW"]).arg(&library));
    assert!(parts.contains(&format!("[{}]", soname())) && !parts.contains("TEXTREL") && !parts.contains("NEEDED"), "{parts}");
    assert!(parts.lines().any(|line| line.contains("GNU_STACK") && line.contains(" RW ")), "{parts}");
}

#[test]
fn an_installation_that_cannot_be_says_so_in_a_line() {
    let folder = Folder::new("refused-prefix");
    let occupied = folder.holding("occupied", b"");
    for prefix in ["", "-x", "a\"b", "a$b", "a\nb", "a "] {
        complaint(&mut install(Path::new(prefix)), 2);
    }
    assert!(complaint(&mut install(Path::new(TOP)), 2).contains("bin/hdf4 would be replaced"));
    complaint(install(&folder.path("a")).arg("b"), 2);
    complaint(&mut install(&occupied), 3);
    complaint(&mut install(&occupied.join("below")), 3);
    assert_eq!(folder.names(), ["occupied"]);
}

#[test]
fn the_manual_page_has_every_command_and_option() {
    let page = fs::read_to_string(Path::new(TOP).join("docs/hdf4.1")).unwrap();
    let help = common::granted(&["--help"]);
    let commands: Vec<&str> =
        help.lines().take_while(|line| !line.is_empty()).filter_map(|line| line.split("hdf4 ").nth(1)).collect();
    assert!(commands.len() >= 8);
    for option in commands.iter().flat_map(|line| line.split([' ', '[', ']', '|'])).filter(|word| word.starts_with("--")) {
        let option = option.replace('-', "\\-");
        assert!(page.contains(&format!("\\fB{option}\\fR")) || page.contains(&format!("\\fBhdf4 {option}\\fR")), "{option}");
        assert!(page.contains(&format!("\n.B {option}\n")) || page.contains(&format!("\n.BI {option}\\ ")), "{option}");
    }
    for command in commands {
        let name = command.split(' ').next().unwrap().replace('-', "\\-");
        assert!(page.contains(&format!("\n\\fBhdf4 {name}\\fR")), "{command}");
        assert!(page.contains(&format!("\n.B {name}\n")), "{command}");
    }
}
