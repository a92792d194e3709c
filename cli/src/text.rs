//! Bytes of a file as text, and refusals in plain words.

use hdf4::Rule;
use std::ffi::OsStr;
use std::fmt::Display;

/// Text in quotes, what cannot be printed escaped.
pub fn quoted(text: &[u8]) -> String {
    format!("\"{}\"", text.escape_ascii())
}

/// The first of some words, with a comma between two, and how many there are more.
pub fn first_of(words: impl Iterator<Item = String>) -> String {
    const MOST: usize = 100;
    let mut words: Vec<String> = words.collect();
    let more = words.len().saturating_sub(MOST);
    words.truncate(MOST);
    let more = if more > 0 { format!(" and {more} more") } else { String::new() };
    format!("{}{more}", words.join(", "))
}

/// A name of a file in a message: on one line, whatever it has in it.
pub fn shown(name: impl AsRef<OsStr>) -> String {
    let letter = |letter: char| if letter.is_control() { letter.escape_default().to_string() } else { letter.to_string() };
    name.as_ref().to_string_lossy().chars().map(letter).collect()
}

/// A refusal of this program's own, by a rule of the library and at a place, as the library's are printed.
pub fn refusal(rule: Rule, why: impl Display, place: u64) -> String {
    format!("{}: {why} (number {}, place {place})", rule.name(), rule.number())
}
