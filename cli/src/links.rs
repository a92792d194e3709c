//! Linked blocks that are broken, in plain words: which table or block it is, the reference that it is named by, and how it is
//! broken.

use crate::input::Input;
use crate::text::refusal;
use crate::words::Pair;
use hdf4::{base_tag, CopyError, Error, Link, Links, Rule};

/// The tag of tables and blocks.
const LINKED_TAG: u16 = 20;

/// What is said where copying an element is refused.
pub fn told(file: &Input, (tag, reference): Pair, refused: CopyError) -> String {
    let CopyError { rule, place, link } = refused;
    match link.and_then(|link| broken(file, place, link, rule)) {
        Some(broken) => refusal(rule, format_args!("{}/{reference} is in linked blocks, and its {broken}", base_tag(tag)), place),
        None => refused.to_string(),
    }
}

/// A table or block, its reference, and how it is broken.
fn broken(file: &Input, place: u64, link: Link, rule: Rule) -> Option<String> {
    let links = Links::of(&file.bytes, place)?;
    let reference = links.reference(link)?;
    let how = match (rule, link) {
        (Rule::TableLoop, Link::Table(index)) => Some(repeated(&links, index, reference)),
        _ => unfit(file, reference, links.needed(link)),
    };
    Some(format!("{link} (reference {reference}) {}", how?))
}

/// How the table of an index comes once too often.
fn repeated(links: &Links, index: usize, reference: u16) -> String {
    match links.tables().take(index).position(|table| table == reference) {
        Some(earlier) => format!("repeats table {earlier}"),
        None => "is one too many: an element has at most 256 tables".to_string(),
    }
}

/// How a table or block is not one of which so many bytes can be read.
fn unfit(file: &Input, reference: u16, needed: u64) -> Option<String> {
    if reference == 0 {
        return Some("is missing: reference 0 names none".to_string());
    }
    match hdf4::view(&file.bytes, LINKED_TAG, reference) {
        Err(Error { rule: Rule::Absent, .. }) => Some("is not in the file".to_string()),
        Err(Error { rule: Rule::NotStored, .. }) => Some("is not stored yet".to_string()),
        Err(Error { rule: Rule::Storage, .. }) => Some("is in extended storage, where plain storage is needed".to_string()),
        Ok(part) if (part.len() as u64) < needed => {
            Some(format!("is too short: it has {} of the {needed} bytes that are needed", part.len()))
        }
        _ => None,
    }
}
