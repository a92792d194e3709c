//! The desk that edits, and what is said where the newest edit is another desk's.

use crate::fault::Fault;
use crate::text::refusal;
use crate::words::{long_number, Words};
use hdf4::{Error, Rule};
use std::env;
use std::ffi::{OsStr, OsString};
use std::os::unix::ffi::OsStrExt;

pub const OPTION: &str = "--desk";

/// What names the desk where no option does.
const VARIABLE: &str = "HDF4_DESK";

/// Its value where a desk must be named by the option.
const REQUIRED: &str = "required";

/// The desk where neither does.
const DEFAULT: u32 = 0;

/// Takes off the words that name a desk before the command: there the option may stand too.
pub fn before_command(words: &mut Vec<OsString>) -> Vec<OsString> {
    let mut taken = 0;
    while let Some(word) = words.get(taken).filter(|word| is_option(word)) {
        taken += if *word == OPTION { 2 } else { 1 };
    }
    words.drain(..taken.min(words.len())).collect()
}

/// `--desk`, or `--desk=` with its value.
fn is_option(word: &OsStr) -> bool {
    matches!(word.as_bytes().strip_prefix(OPTION.as_bytes()), Some([] | [b'=', ..]))
}

/// The desk that edits. A variable that is empty counts as one that is not set.
pub fn named(words: &Words) -> Result<u32, Fault> {
    if let Some(word) = words.value(OPTION) {
        return long_number(OPTION, word);
    }
    match env::var_os(VARIABLE).filter(|value| !value.is_empty()) {
        None => Ok(DEFAULT),
        Some(value) if value == REQUIRED => {
            Err(Fault::Use(format!("the desk must be named here, by {OPTION} N ({VARIABLE} is {REQUIRED})")))
        }
        Some(value) => long_number(VARIABLE, &value),
    }
}

/// Why the newest edit of an image is not undone for a desk. Where it is another desk's, it is said whose.
pub fn not_undone(e: Error, image: &[u8], desk: u32) -> String {
    match hdf4::newest_desk(image).filter(|_| e.rule == Rule::OtherDesk) {
        Some(newest) => refusal(e.rule, format_args!("the newest edit is desk {newest}'s, and this is desk {desk}"), e.place),
        None => e.to_string(),
    }
}
