//! How often edits and undos were granted, by what the file carries, and how often each rule refused one.

use super::{add_each, head, row, Call};
use crate::editor::{Form, Reason, Refused, FORMS, OTHER_DESK};
use std::{array, fmt};

/// An edit or an undo and, where a trailer is undone, its form; with its name in the table.
type Column = (Call, Option<Form>, &'static str);

const COLUMNS: [Column; 6] = [
    (Call::Add, None, "add"),
    (Call::Replace, None, "replace"),
    (Call::Remove, None, "remove"),
    (Call::Undo, None, "undo"),
    (Call::Undo, Some(Form::Old), UNDONE[Form::Old as usize]),
    (Call::Undo, Some(Form::Long), UNDONE[Form::Long as usize]),
];

/// The names of undos in the tables, by the form of the trailer.
const UNDONE: [&str; FORMS.len()] = ["undo old", "undo long"];

/// What a file carries beneath the trailer that a granted edit left, or that was undone, with its name in the table.
const BENEATH: [(Option<Form>, &str); 3] =
    [(None, "0 above no trailer"), (Some(Form::Old), "0 above an old one"), (Some(Form::Long), "0 above a long one")];

/// The rules that refuse an edit or an undo, with their names in the table.
const REASONS: [(Reason, &str); 19] = [
    (Reason::Length, "1 length given"),
    (Reason::Limit, "1 new length"),
    (Reason::Opening, "1 to 10 opening"),
    (Reason::Blocks, "6 blocks"),
    (Reason::Slots, "6 slots"),
    (Reason::Tag, "7 tag"),
    (Reason::Absent, "11 absent"),
    (Reason::Present, "18 present"),
    (Reason::PresentUnstored, "18 not stored"),
    (Reason::Room, "19 room"),
    (Reason::NoTrailer, "20 no trailer"),
    (Reason::LengthBefore, "21 length before"),
    (Reason::BytesAltered, "21 bytes altered"),
    (Reason::PlaceAltered, "21 place"),
    (Reason::PastLengthBefore, "21 place past length"),
    (Reason::Padding, "21 padding"),
    (Reason::Previous, "21 previous"),
    (Reason::Restored, "21 restored image"),
    (Reason::Desk, "30 other desk"),
];

/// An answer to an undo, and whether the edit is one that the history holds; with its name in the table.
const UNDOS: [(u64, bool, &str); 4] = [
    (0, true, "0 edit in history"),
    (0, false, "0 edit before it"),
    (OTHER_DESK, true, "30 edit in history"),
    (OTHER_DESK, false, "30 edit before it"),
];

#[derive(Default)]
pub struct Edits {
    granted: [[u64; BENEATH.len()]; COLUMNS.len()],
    refused: [[u64; REASONS.len()]; COLUMNS.len()],
    /// Undos that were granted or refused to another desk, by the form of the trailer.
    undos: [[u64; FORMS.len()]; UNDOS.len()],
}

impl Edits {
    /// A granted edit or undo: the form of the trailer that was undone, and what the file carries beneath the trailer.
    pub fn count_granted(&mut self, call: Call, undone: Option<Form>, beneath: Option<Form>) {
        let row = BENEATH.iter().position(|(known, _)| *known == beneath);
        self.granted[column_of(call, undone)][row.expect("a known form")] += 1;
    }

    pub fn count_refused(&mut self, call: Call, refused: &Refused) {
        self.refused[column_of(call, refused.form)][refused.reason as usize] += 1;
    }

    /// The answer to an undo on a file with a trailer, whether the history holds its edit, and the trailer's form.
    pub fn count_undo(&mut self, number: u64, is_held: bool, form: Form) {
        if let Some(row) = UNDOS.iter().position(|(known, held, _)| (*known, *held) == (number, is_held)) {
            self.undos[row][form as usize] += 1;
        }
    }

    pub fn add(&mut self, other: &Edits) {
        add_each(&mut self.granted, &other.granted);
        add_each(&mut self.refused, &other.refused);
        add_each(&mut self.undos, &other.undos);
    }

    /// What a whole run must reach, but this one did not.
    pub fn never_reached(&self) -> impl Iterator<Item = String> + '_ {
        let edits = self.rows().flat_map(|(title, counts)| {
            COLUMNS.into_iter().zip(counts).map(move |((_, _, column), count)| (column, title, count))
        });
        let undos = self.undo_rows().flat_map(|(title, counts)| {
            UNDONE.into_iter().zip(counts).map(move |(column, count)| (column, title, count))
        });
        let missing = edits.chain(undos).filter(|(.., count)| *count == Some(0));
        missing.map(|(column, title, _)| format!("{column}: {title}"))
    }

    /// Each way in which a call is granted and each rule that refuses one, and how often it was met, where it can be.
    fn rows(&self) -> impl Iterator<Item = (&'static str, [Option<u64>; COLUMNS.len()])> + '_ {
        let granted = BENEATH.into_iter().enumerate().map(|(row, (_, title))| {
            (title, array::from_fn(|at| can_be_granted(COLUMNS[at]).then_some(self.granted[at][row])))
        });
        let refused = REASONS.into_iter().map(|(reason, title)| {
            (title, array::from_fn(|at| can_break(COLUMNS[at], reason).then_some(self.refused[at][reason as usize])))
        });
        granted.chain(refused)
    }

    /// Each answer to an undo, and how often it was given by the form of the trailer. The history holds no edit that left an old
    /// one.
    fn undo_rows(&self) -> impl Iterator<Item = (&'static str, [Option<u64>; FORMS.len()])> + '_ {
        let counts = |((_, is_held, title), [old, long]): ((u64, bool, &'static str), &[u64; FORMS.len()])| {
            (title, [(!is_held).then_some(*old), Some(*long)])
        };
        UNDOS.into_iter().zip(&self.undos).map(counts)
    }
}

fn column_of(call: Call, form: Option<Form>) -> usize {
    let column = COLUMNS.iter().position(|(known, of, _)| (*known, *of) == (call, form));
    column.expect("an edit or an undo")
}

/// An undo is granted where there is a trailer.
fn can_be_granted((call, form, _): Column) -> bool {
    call != Call::Undo || form.is_some()
}

/// Whether this rule can refuse the call, by the form of the trailer that is judged.
fn can_break((call, form, _): Column, reason: Reason) -> bool {
    match reason {
        Reason::Length | Reason::Opening => form.is_none(),
        Reason::Tag | Reason::Limit | Reason::Room => call != Call::Undo,
        Reason::Present | Reason::PresentUnstored | Reason::Blocks | Reason::Slots => call == Call::Add,
        Reason::Absent => call == Call::Replace || call == Call::Remove,
        Reason::NoTrailer => call == Call::Undo && form.is_none(),
        _ => form.is_some(),
    }
}

impl fmt::Display for Edits {
    fn fmt(&self, out: &mut fmt::Formatter) -> fmt::Result {
        head(out, "edit", COLUMNS.iter().map(|(_, _, title)| *title))?;
        for (title, counts) in self.rows() {
            row(out, title, counts.into_iter())?;
        }
        head(out, "edit undone", UNDONE.into_iter())?;
        for (title, counts) in self.undo_rows() {
            row(out, title, counts.into_iter())?;
        }
        Ok(())
    }
}
