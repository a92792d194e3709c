//! The order and the places of refusals, in named cases: for each call each rule that can refuse it, alone, and each two rules
//! that one input can break. All answers are written down from the paper, and held against the library and the reader alike.

mod ask;
mod by_library;
mod by_reader;
mod choice;
mod edits;
mod elements;
mod groups;
mod holes;
mod links;
mod list;
mod lookup;
mod opening;
mod packing;
mod records;
mod types;
mod undo;
mod vdatas;

use crate::cases::pieces::{FIRST_SLOT, NEXT};
use crate::storage::Layout;
use crate::tally::Call;
use ask::{Answer, Ask, Written};
use std::collections::BTreeSet;

/// A named case. It has one call, which breaks one rule or none, or two: the first breaks two rules, and in the second the one
/// that answered is mended, so that the other one answers.
#[derive(Clone)]
pub struct Case {
    /// What is asked for, and the faults in it.
    of: &'static str,
    faults: Vec<&'static str>,
    steps: Vec<Step>,
    variant: Variant,
}

/// What a call is made on, where its rules or their places are others by it. What is shown of each stands apart.
#[derive(Clone, Copy, PartialEq, Eq)]
enum Variant {
    Usual,
    /// A linked element with a sparse record.
    Sparse,
    /// A file with a trailer of the old form.
    OldTrailer,
}

/// A call, the rule that answers it, and what the paper says of it.
#[derive(Clone)]
struct Step {
    rule: &'static str,
    ask: Ask,
    paper: Answer,
}

/// A rule, how it is broken, and number and place of the answer; of a broken table or block also its index. The rule is named by
/// its number and, where others have the same one, by a word.
#[derive(Clone, Copy)]
struct Fault {
    rule: &'static str,
    name: &'static str,
    answer: [u64; 2],
    index: Option<u64>,
    spoil: fn(&mut Ask),
}

/// No rule is broken.
const NO_RULE: &str = "0";

/// One byte more than a file may have.
const TOO_MANY_BYTES: usize = 2_147_483_648;

const TOO_LONG: [Fault; 1] = [fault("1", "2,147,483,648 bytes", [1, 0], |ask| ask.image.lengthen(TOO_MANY_BYTES))];

/// The other faults of opening with which it is shown that opening comes first. The first slot of each file stands at 10.
const OPENING: [Fault; 3] = [
    fault("2", "other first bytes", [2, 0], |ask| ask.image.put(0, &[0xff])),
    fault("4", "a chain that leads back", [4, 4], |ask| ask.image.put32(NEXT, 4)),
    fault("7", "a first slot of tag 0", [7, 10], |ask| ask.image.put_tag(FIRST_SLOT, 0)),
];

/// The element that is read is named and not stored yet. Its slot stands at 22, behind a free one.
const UNSTORED: [Fault; 1] = [fault("29", "an element that is not stored yet", [29, 22], |ask| ask.image.unstore(22))];

/// Holds all cases against library and reader, and the cases against the list. Answers how many there are, and for how many
/// entries of the list.
pub fn check() -> Result<[usize; 2], String> {
    let mut cases = cases();
    cases.sort_by_key(|case| case.steps.len());
    let listed = list::judge(&cases)?;
    let mut names = BTreeSet::new();
    for case in &cases {
        case.check()?;
        if !names.insert(case.name()) {
            return Err(format!("{}\nis the name of two cases", case.name()));
        }
    }
    Ok([cases.len(), listed])
}

fn cases() -> Vec<Case> {
    let elements = [lookup::cases(), elements::cases(), links::cases(), holes::cases(), choice::cases()].concat();
    let reading = [elements, records::cases(), groups::cases(), vdatas::cases()].concat();
    let edits = [edits::cases(), undo::cases()].concat();
    [
        opening::cases(),
        with(&TOO_LONG, with(&OPENING, reading)),
        edits::with_lengths(with(&OPENING, edits)),
        undo::shortest_files(),
        packing::cases(),
    ]
    .concat()
}

const fn fault(rule: &'static str, name: &'static str, answer: [u64; 2], spoil: fn(&mut Ask)) -> Fault {
    Fault { rule, name, answer, index: None, spoil }
}

/// A fault of a table or a block: number, place and index of the answer.
const fn broken(rule: &'static str, name: &'static str, answer: [u64; 3], spoil: fn(&mut Ask)) -> Fault {
    let [number, place, index] = answer;
    Fault { rule, name, answer: [number, place], index: Some(index), spoil }
}

/// A call that is granted: its values, and what it writes.
fn granted(of: &'static str, ask: Ask, values: &[u64], written: Written) -> Case {
    let step = Step { rule: NO_RULE, ask, paper: Answer::granted(values, written) };
    Case { of, faults: Vec::new(), steps: vec![step], variant: Variant::Usual }
}

/// A call that one rule refuses, with number and place.
fn refused(of: &'static str, rule: &'static str, ask: Ask, answer: [u64; 2]) -> Case {
    let step = Step { rule, ask, paper: Answer::refused(answer) };
    Case { of, faults: Vec::new(), steps: vec![step], variant: Variant::Usual }
}

/// A call that two rules refuse, and the same with the first of them mended.
fn in_order(of: &'static str, first: (&'static str, Ask, [u64; 2]), mended: (&'static str, Ask, [u64; 2])) -> Case {
    let step = |(rule, ask, answer)| Step { rule, ask, paper: Answer::refused(answer) };
    Case { of, faults: Vec::new(), steps: vec![step(first), step(mended)], variant: Variant::Usual }
}

/// The cases of one call with each of the faults, whose rules are judged first. Where a case is granted, the fault is alone.
fn over(faults: &[Fault], cases: &[Case]) -> Vec<Case> {
    let single = cases.iter().filter(|case| case.steps.len() == 1);
    single.flat_map(|case| faults.iter().map(|fault| fault.over(case))).collect()
}

/// Two of the faults at once, each before each of those behind it.
fn two_at_once(faults: &[Fault], cases: &[Case]) -> Vec<Case> {
    (1..faults.len()).flat_map(|at| over(&faults[..at], &over(&faults[at..=at], cases))).collect()
}

/// What is judged of the element at 22 before its bytes: that it is there, that it is stored, and that it is plain. Behind are
/// cases of what is judged later.
fn element_first(absent: &[Fault], extended: &[Fault], read: &[Case], behind: &[Case]) -> Vec<Case> {
    let not_plain = over(extended, read);
    [
        over(absent, read),
        over(&UNSTORED, read),
        over(&UNSTORED, &not_plain),
        over(&UNSTORED, behind),
        over(extended, behind),
        not_plain,
    ]
    .concat()
}

/// The cases, and those of one call with each of the faults.
fn with(faults: &[Fault], mut cases: Vec<Case>) -> Vec<Case> {
    cases.extend(over(faults, &cases));
    cases
}

/// The name of a call, with what it is made on.
fn name_of_call(call: Call, variant: Variant) -> String {
    match variant {
        Variant::Usual => format!("{call:?}"),
        Variant::Sparse => format!("{call:?} by 16 bytes"),
        Variant::OldTrailer => format!("{call:?} by 32 bytes"),
    }
}

impl Fault {
    /// What the paper answers where the rule is broken.
    fn paper(&self) -> Answer {
        self.index.map_or(Answer::refused(self.answer), |index| Answer::refused_at(self.answer, index))
    }

    /// The call with the fault in it.
    fn in_ask(&self, ask: &Ask) -> Ask {
        let mut ask = ask.clone();
        (self.spoil)(&mut ask);
        ask
    }

    /// A call with a fault that no rule is asked about.
    fn unmet(&self, case: &Case) -> Case {
        let Step { rule, ask, paper } = &case.steps[0];
        let steps = vec![Step { rule, ask: self.in_ask(ask), paper: paper.clone() }];
        Case { faults: vec![self.name], steps, ..*case }
    }

    /// The case with the fault, whose rule is judged first.
    fn over(&self, case: &Case) -> Case {
        let behind = &case.steps[0];
        let step = Step { rule: self.rule, ask: self.in_ask(&behind.ask), paper: self.paper() };
        let steps = if behind.rule == NO_RULE { vec![step] } else { vec![step, behind.clone()] };
        Case { faults: [&[self.name], &case.faults[..]].concat(), steps, ..*case }
    }
}

impl Case {
    fn check(&self) -> Result<(), String> {
        let names = [self.name(), format!("{}; the first mended", self.name())];
        self.steps
            .iter()
            .zip(names)
            .try_for_each(|(step, name)| step.check().map_err(|difference| format!("{name}\n{difference}")))
    }

    fn name(&self) -> String {
        let call = name_of_call(self.steps[0].ask.call, self.variant);
        let (of, faults) = (self.of, self.faults.join(", and "));
        match self.faults.as_slice() {
            [] => format!("refusals, {call} of {of}"),
            _ => format!("refusals, {call} of {of}: {faults}"),
        }
    }

    /// The case of a linked element whose record has this layout.
    fn in_layout(self, layout: Layout) -> Case {
        match layout {
            Layout::Full => self,
            Layout::Sparse => Case { variant: Variant::Sparse, ..self },
        }
    }

    /// The case of a file with a trailer of the old form.
    fn of_old_trailer(self) -> Case {
        Case { variant: Variant::OldTrailer, ..self }
    }
}

impl Step {
    fn check(&self) -> Result<(), String> {
        let Step { rule, ask, paper } = self;
        let reader = by_reader::answer_to(ask);
        let (library, difference) = by_library::answer_to(ask, &paper.written);
        let numbers = paper.padded(library.len());
        if library != numbers || reader.numbers != numbers {
            return Err(format!("paper   {numbers:?}\nlibrary {library:?}\nreader  {:?}", reader.numbers));
        }
        if reader.written != paper.written {
            return Err(format!("paper   {:?}\nreader  {:?}", paper.written, reader.written));
        }
        if list::number_of(rule) != numbers[0].to_string() {
            return Err(format!("is to show rule {rule}, but its answer is {}", numbers[0]));
        }
        difference.map_or(Ok(()), |difference| Err(format!("library {difference}")))
    }
}
