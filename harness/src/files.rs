//! Real files: each must be answered alike by library and reader, and as the table of expected answers says. Those that open
//! are edited, and the edits undone.

use crate::compare::directory::expected_open;
use crate::compare::{compare, Pairs};
use crate::random::Random;
use crate::reader::{self, base_tag, Slot};
use crate::sequences::round_trip::round_trip;
use crate::tally::Tally;
use hdf4_sys::OpenAnswer;
use std::collections::BTreeMap;
use std::fs;
use std::path::{Path, PathBuf};

const FOLDER: &str = concat!(env!("CARGO_MANIFEST_DIR"), "/files");

/// Compares every file of the folder; answers how many there are.
pub fn compare_all(random: &mut Random, tally: &mut Tally) -> Result<usize, String> {
    let mut expected = expected_answers()?;
    let files = hdf_files()?;
    for path in &files {
        let name = name_of(path);
        let answer = compare_one(path, random, tally)?;
        let Some(line) = expected.remove(&name) else { return Err(format!("{name} is not in the table")) };
        if line != numbers(&answer) {
            return Err(format!("{name}: answered {}, expected {line}", numbers(&answer)));
        }
    }
    match expected.into_keys().next() {
        Some(name) => Err(format!("{name} is in the table, but there is no such file")),
        None => Ok(files.len()),
    }
}

/// Compares one file and prints what is in it.
pub fn show(path: &Path, random: &mut Random, tally: &mut Tally) -> Result<(), String> {
    let answer = compare_one(path, random, tally)?;
    println!("{} {}", name_of(path), numbers(&answer));
    if let Ok(directory) = reader::open(&read(path)?) {
        for slot in directory.live() {
            let base = base_tag(slot.tag);
            let mark = if base == slot.tag { "" } else { " extended" };
            println!("  {}: {base}/{} {}{mark}", slot.place, slot.reference, part_of(slot));
        }
    }
    Ok(())
}

/// Length and offset of an element that is stored.
fn part_of(slot: &Slot) -> String {
    match slot.is_unstored() {
        true => "not stored".into(),
        false => format!("{} bytes at {}", slot.length, slot.offset),
    }
}

/// The bytes of a file of the folder.
pub fn image(name: &str) -> Result<Vec<u8>, String> {
    read(&Path::new(FOLDER).join(name))
}

/// The lines of a table of the folder, without its comments.
pub fn lines(name: &str) -> Result<Vec<String>, String> {
    let text = String::from_utf8(image(name)?).map_err(|fault| fault.to_string())?;
    Ok(text.lines().filter(|line| !line.starts_with('#')).map(String::from).collect())
}

/// Compares all calls on one file, each pair in it looked up. Answers what opening it answers.
fn compare_one(path: &Path, random: &mut Random, tally: &mut Tally) -> Result<OpenAnswer, String> {
    let image = read(path)?;
    let outcome = compare(&image, Pairs::All, random, tally).map_err(|difference| difference.to_string());
    let outcome = outcome.and_then(|()| round_trip(&image, random, tally));
    outcome.map_err(|fault| format!("{}\n{fault}", path.display()))?;
    Ok(expected_open(&reader::open(&image)))
}

/// The names of the files that the table expects to open.
pub fn names_that_open() -> Result<Vec<String>, String> {
    let opening = expected_answers()?.into_iter().filter(|(_, line)| line.starts_with("0 "));
    Ok(opening.map(|(name, _)| name).collect())
}

/// The table of expected answers: a name, then number, place, blocks, slots and live slots.
fn expected_answers() -> Result<BTreeMap<String, String>, String> {
    let lines = lines("expected.txt")?;
    let lines = lines.iter().filter_map(|line| line.split_once(' '));
    Ok(lines.map(|(name, line)| (name.into(), line.into())).collect())
}

/// The paths of the files of the folder, in the order of their names.
fn hdf_files() -> Result<Vec<PathBuf>, String> {
    let entries = fs::read_dir(FOLDER).map_err(|fault| format!("{FOLDER}: {fault}"))?;
    let paths = entries.filter_map(|entry| entry.ok()).map(|entry| entry.path());
    let mut files: Vec<PathBuf> = paths.filter(|path| path.extension().is_some_and(|end| end == "hdf")).collect();
    files.sort();
    Ok(files)
}

fn numbers(answer: &OpenAnswer) -> String {
    let OpenAnswer { number, place, blocks, slots, live } = answer;
    format!("{number} {place} {blocks} {slots} {live}")
}

fn name_of(path: &Path) -> String {
    path.file_name().map(|name| name.to_string_lossy().into_owned()).unwrap_or_default()
}

fn read(path: &Path) -> Result<Vec<u8>, String> {
    fs::read(path).map_err(|fault| format!("{}: {fault}", path.display()))
}
