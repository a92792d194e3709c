//! The command line: thin over the library. It reads files, writes them back and prints.

mod attributes;
mod changes;
mod choice;
mod datasets;
mod desk;
mod directory;
mod edit;
mod element;
mod fault;
mod grid;
mod grids;
mod groups;
mod history;
mod input;
mod json;
mod links;
mod list;
mod numbers;
mod output;
mod pgm;
mod print;
mod progress;
mod reference;
mod shape;
mod sorted;
mod storage;
mod store;
mod tags;
mod temporary;
mod text;
mod turns;
mod values;
mod vgroups;
mod words;

use fault::Fault;
use print::Print;
use std::env;
use std::ffi::{c_int, OsStr, OsString};
use std::process::ExitCode;
use text::shown;
use words::{Choice, Words};

const HELP: &str = include_str!("help.txt");

const JSON: Choice = Choice { name: "--json", has_value: false };
const HEX: Choice = Choice { name: "--hex", has_value: false };
const MOST: Choice = Choice { name: "--most", has_value: true };
const NAME: Choice = Choice { name: "--name", has_value: true };
const TEXT: Choice = Choice { name: "--text", has_value: false };
const CSV: Choice = Choice { name: "--csv", has_value: false };
const PGM: Choice = Choice { name: "--pgm", has_value: false };
const ARRAY: Choice = Choice { name: "--array", has_value: false };
const IMAGE: Choice = Choice { name: "--image", has_value: false };
const ROWS: Choice = Choice { name: "--rows", has_value: true };
const ALLOW_ZERO: Choice = Choice { name: "--allow-zero", has_value: false };
const DESK: Choice = Choice { name: desk::OPTION, has_value: true };

/// A command, the options that it takes, and what it does.
struct Command {
    name: &'static str,
    choices: &'static [Choice],
    run: fn(&Words, &mut Print) -> Result<(), Fault>,
}

const COMMANDS: [Command; 11] = [
    Command { name: "list", choices: &[JSON], run: list::list },
    Command { name: "read", choices: &[HEX, MOST], run: element::read },
    Command { name: "groups", choices: &[], run: groups::groups },
    Command { name: "values", choices: &[JSON, NAME], run: values::values },
    Command { name: "grids", choices: &[JSON], run: grids::grids },
    Command { name: "grid", choices: &[TEXT, CSV, PGM, ARRAY, IMAGE, NAME, ROWS, MOST], run: grid::grid },
    Command { name: "edits", choices: &[JSON], run: history::edits },
    Command { name: "add", choices: &[ALLOW_ZERO, DESK], run: edit::add },
    Command { name: "replace", choices: &[DESK], run: edit::replace },
    Command { name: "remove", choices: &[DESK], run: edit::remove },
    Command { name: "undo", choices: &[DESK], run: edit::undo },
];

/// Does what the words say.
fn run(mut words: Vec<OsString>, print: &mut Print) -> Result<(), Fault> {
    if words.iter().take_while(|word| *word != "--").any(|word| is(word, &["--help", "-h"])) {
        return print.bytes(HELP.as_bytes());
    }
    let desk = desk::before_command(&mut words);
    if words.is_empty() {
        return Err(Fault::Use("a command is missing; hdf4 help names them".to_string()));
    }
    let name = words.remove(0);
    if is(&name, &["help"]) {
        return print.bytes(HELP.as_bytes());
    }
    if is(&name, &["--version", "-V"]) {
        return print.text(format_args!("hdf4 {}\n", env!("CARGO_PKG_VERSION")));
    }
    let Some(command) = COMMANDS.iter().find(|command| name == command.name) else {
        return Err(Fault::Use(format!("{}: no such command; hdf4 help names them", shown(name))));
    };
    let words = Words::new([desk, words].concat(), command.choices).map_err(|fault| named(command.name, fault))?;
    (command.run)(&words, print)
}

fn is(word: &OsStr, names: &[&str]) -> bool {
    names.iter().any(|name| word == *name)
}

/// Wrong use of a command, with the line that shows its use.
fn named(command: &str, fault: Fault) -> Fault {
    match fault {
        Fault::Use(message) => Fault::Use(format!("{command}: {message}; usage: {}", usage(command))),
        fault => fault,
    }
}

/// How a command is used.
fn usage(command: &str) -> &'static str {
    let shows = |line: &&str| line.split_whitespace().nth(1) == Some(command);
    HELP.lines().map(|line| line.trim_start_matches("usage:").trim()).find(shows).unwrap_or("hdf4 help")
}

/// What a command says where it has too few words, or too many.
pub fn miscounted(command: &str) -> Fault {
    named(command, Fault::Use("too few words, or too many".to_string()))
}

extern "C" {
    fn signal(number: c_int, handler: usize) -> usize;
}

const FILE_TOO_LARGE: c_int = 25;
const IGNORED: usize = 1;

fn main() -> ExitCode {
    // A limit on the length of files is then an error of writing, and does not kill.
    unsafe { signal(FILE_TOO_LARGE, IGNORED) };
    let mut print = Print::new();
    let done = run(env::args_os().skip(1).collect(), &mut print);
    // What was printed before a refusal goes out before its message.
    let flushed = print.flush();
    let Err(fault) = done.and(flushed) else { return ExitCode::SUCCESS };
    let status = fault.status();
    fault.messages().iter().for_each(print::tell);
    ExitCode::from(status)
}
