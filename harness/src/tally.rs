//! How many files and calls were compared, and how often each answer number and each rule was reached.

mod edits;

use crate::editor::{BAD_TRAILER, NO_EDIT, NO_ROOM, OTHER_DESK, PRESENT};
use crate::reader::{ABSENT, NOT_STORED, SMALL, TWICE};
use crate::records::{Cause, DEEP, NO_VALUE, RECORD, TYPE};
use crate::storage::{Layout, Way, CHAIN, NO_BLOCK, NO_TABLE, SHORT_BLOCK, SHORT_TABLE, STORAGE, TABLE_LOOP};
use crate::vset::{type_of, Column, Sort, Value, Vdata, CODES};
use edits::Edits;
use std::{fmt, slice};

/// The calls of the library. A further call gets a further case here, in `CALLS` and in `can_answer`.
#[derive(Clone, Copy, Debug, PartialEq, Eq)]
pub enum Call {
    Open,
    List,
    Find,
    View,
    Size,
    Copy,
    Choose,
    Add,
    Replace,
    Remove,
    Undo,
    ReadNumberType,
    ReadDimension,
    ReadArray,
    ReadGroup,
    ReadVdata,
    ReadFields,
    ReadValue,
    ReadColumn,
    ListGroup,
    PackNumberType,
    PackDimension,
    PackArray,
    PackGroup,
    PackVdata,
}

pub const CALLS: [Call; 25] = [
    Call::Open,
    Call::List,
    Call::Find,
    Call::View,
    Call::Size,
    Call::Copy,
    Call::Choose,
    Call::Add,
    Call::Replace,
    Call::Remove,
    Call::Undo,
    Call::ReadNumberType,
    Call::ReadDimension,
    Call::ReadArray,
    Call::ReadGroup,
    Call::ReadVdata,
    Call::ReadFields,
    Call::ReadValue,
    Call::ReadColumn,
    Call::ListGroup,
    Call::PackNumberType,
    Call::PackDimension,
    Call::PackArray,
    Call::PackGroup,
    Call::PackVdata,
];
const FILE_CALLS: usize = 11;
const NUMBERS: usize = 31;

/// The calls that are granted although an element is not stored yet, since they do not read it.
const WITH_UNSTORED: [Call; 6] = [Call::Open, Call::List, Call::Find, Call::Replace, Call::Remove, Call::Undo];

/// A call that reads an element and, where it is counted by it, the layout of the element's record; with its name in the table.
type Read = (Call, Option<Layout>, &'static str);

const READS: [Read; 8] = [
    (Call::View, None, "view"),
    (Call::Size, None, "size"),
    (Call::Size, Some(Layout::Full), "size of 22"),
    (Call::Size, Some(Layout::Sparse), "size of 16"),
    (Call::Copy, None, "copy"),
    (Call::Copy, Some(Layout::Full), "copy of 22"),
    (Call::Copy, Some(Layout::Sparse), "copy of 16"),
    (Call::Choose, None, "choose"),
];

/// The ways to an answer of a call that reads an element, with their names in the table.
const WAYS: [(Way, &str); 47] = [
    (Way::Plain, "0 plain"),
    (Way::Empty, "0 empty"),
    (Way::Linked, "0 linked"),
    (Way::LinkedEmpty, "0 linked, empty"),
    (Way::OneTable, "0 one table"),
    (Way::Tables, "0 more tables"),
    (Way::MostTables, "0 256 tables"),
    (Way::FirstEmpty, "0 first block empty"),
    (Way::FirstShorter, "0 first block shorter"),
    (Way::FirstLonger, "0 first block longer"),
    (Way::FirstHole, "0 first block a hole"),
    (Way::LaterHole, "0 later block a hole"),
    (Way::OnlyHoles, "0 only holes"),
    (Way::Current, "0 current"),
    (Way::CurrentOfBoth, "0 current of both"),
    (Way::Fallback, "0 fallback"),
    (Way::Opening, "1 to 10 opening"),
    (Way::OpeningFallback, "1 to 10 fallback"),
    (Way::Absent, "11 absent"),
    (Way::Unstored, "29 not stored"),
    (Way::UnstoredExtended, "29 extended"),
    (Way::UnstoredOverPlain, "29 above a plain one"),
    (Way::UnstoredFallback, "29 in fallback"),
    (Way::Extended, "12 extended"),
    (Way::ExtendedOverPlain, "12 above a plain one"),
    (Way::ExtendedFallback, "12 in fallback"),
    (Way::OtherKind, "12 other kind"),
    (Way::OtherSizeAndKind, "12 size, other kind"),
    (Way::RecordCut, "13 record cut"),
    (Way::OtherSizeOfFull, "13 size, kind in 32"),
    (Way::OtherSizeOfSparse, "13 size, kind in 16"),
    (Way::FirstLength, "13 first_len 0"),
    (Way::BlockLength, "13 blk_len 0"),
    (Way::BlockCount, "13 num_blk 0"),
    (Way::Room, "14 room"),
    (Way::TableZero, "23 table ref 0"),
    (Way::TableAbsent, "23 table absent"),
    (Way::TableUnstored, "23 table not stored"),
    (Way::TableExtended, "23 table extended"),
    (Way::TableShort, "24 table short"),
    (Way::BlockZero, "25 block ref 0"),
    (Way::BlockAbsent, "25 block absent"),
    (Way::BlockUnstored, "25 block not stored"),
    (Way::BlockExtended, "25 block extended"),
    (Way::BlockShort, "26 block short"),
    (Way::TableTwice, "27 table twice"),
    (Way::TooManyTables, "27 257th table"),
];

/// The refusals of a copy that have an index.
const WITH_INDEX: [u64; 5] = [NO_TABLE, SHORT_TABLE, NO_BLOCK, SHORT_BLOCK, TABLE_LOOP];

/// The causes of an answer of a call on records, with their names in the table.
const CAUSES: [(Cause, &str); 48] = [
    (Cause::Whole, "0 whole"),
    (Cause::BytesBehind, "0 bytes behind"),
    (Cause::ByRecord, "0 by record"),
    (Cause::ByField, "0 by field"),
    (Cause::NoRecords, "0 no records"),
    (Cause::NoGroupInside, "0 no group inside"),
    (Cause::GroupsInside, "0 groups inside"),
    (Cause::MostNested, "0 16 groups"),
    (Cause::MostPairs, "0 4,096 pairs"),
    (Cause::Opening, "1 to 10 opening"),
    (Cause::Absent, "11 absent"),
    (Cause::Unstored, "29 not stored"),
    (Cause::Extended, "12 extended"),
    (Cause::Length, "15 length"),
    (Cause::Cut, "15 cut"),
    (Cause::Rank, "15 rank"),
    (Cause::PairCount, "15 count of pairs"),
    (Cause::OddMembers, "15 half a member"),
    (Cause::ManyMembers, "15 count of members"),
    (Cause::LongName, "15 long name"),
    (Cause::LongClass, "15 long class"),
    (Cause::Interlace, "15 interlace"),
    (Cause::Version, "15 version"),
    (Cause::FieldCount, "15 257th field"),
    (Cause::FieldEntries, "15 half a field"),
    (Cause::NamesLength, "15 field names"),
    (Cause::Order, "15 order 0"),
    (Cause::Type, "16 type"),
    (Cause::LowFirstType, "16 type, low first"),
    (Cause::Size, "15 size"),
    (Cause::Offset, "15 offset"),
    (Cause::RecordSize, "15 record size"),
    (Cause::Record, "17 record"),
    (Cause::Field, "17 field"),
    (Cause::Component, "17 component"),
    (Cause::DataAbsent, "11 data absent"),
    (Cause::DataUnstored, "29 data not stored"),
    (Cause::DataExtended, "12 data extended"),
    (Cause::DataShort, "15 data short"),
    (Cause::TableFull, "14 table full"),
    (Cause::TooManyPairs, "14 4,097th pair"),
    (Cause::Deep, "22 deep"),
    (Cause::MemberAbsent, "11 member absent"),
    (Cause::MemberUnstored, "29 member not stored"),
    (Cause::MemberExtended, "12 member extended"),
    (Cause::MemberBroken, "15 member broken"),
    (Cause::FirstRoom, "14 room"),
    (Cause::SecondRoom, "14 second room"),
];

/// How a type is met: in a head that a call granted, as a value, by the way to it and by its sort, and in a column.
#[derive(Clone, Copy, PartialEq, Eq)]
enum Meeting {
    InHead(Call),
    Read(Cause),
    Value(Sort),
    Column(Cause),
}

/// The meetings with a type, with their names in the table.
const MEETINGS: [(Meeting, &str); 11] = [
    (Meeting::InHead(Call::ReadVdata), "read vdata"),
    (Meeting::InHead(Call::ReadFields), "fields"),
    (Meeting::InHead(Call::PackVdata), "pack vdata"),
    (Meeting::Read(Cause::ByRecord), "by record"),
    (Meeting::Read(Cause::ByField), "by field"),
    (Meeting::Value(Sort::Negative), "negative"),
    (Meeting::Value(Sort::NotANumber), "NaN"),
    (Meeting::Value(Sort::Other), "other"),
    (Meeting::Column(Cause::ByRecord), "col. by rec"),
    (Meeting::Column(Cause::ByField), "col. by fld"),
    (Meeting::Column(Cause::NoRecords), "col. empty"),
];

#[derive(Default)]
pub struct Tally {
    pub files: u64,
    pub sequences: u64,
    /// Files opened and listed with elements that are not stored yet; slots of such elements found, replaced, removed, put back.
    unstored: [u64; WITH_UNSTORED.len()],
    reached: [[u64; NUMBERS]; CALLS.len()],
    /// Edits and undos.
    pub edits: Edits,
    gone: Counts<{ READS.len() }, { WAYS.len() }>,
    /// Copies refused at the first table or block, and at a later one.
    indices: [[u64; 2]; WITH_INDEX.len()],
    caused: Counts<{ CALLS.len() }, { CAUSES.len() }>,
    /// How often each type was met.
    types: [[u64; MEETINGS.len()]; CODES.len()],
}

/// A table of counts, zeros at first. The rows may be longer than those that have a default of their own.
struct Counts<const ROWS: usize, const COLUMNS: usize>([[u64; COLUMNS]; ROWS]);

impl<const ROWS: usize, const COLUMNS: usize> Default for Counts<ROWS, COLUMNS> {
    fn default() -> Counts<ROWS, COLUMNS> {
        Counts([[0; COLUMNS]; ROWS])
    }
}

impl Call {
    fn title(self) -> &'static str {
        match self {
            Call::Open => "open",
            Call::List => "list",
            Call::Find => "find",
            Call::View => "view",
            Call::Size => "size",
            Call::Copy => "copy",
            Call::Choose => "choose",
            Call::Add => "add",
            Call::Replace => "replace",
            Call::Remove => "remove",
            Call::Undo => "undo",
            Call::ReadNumberType => "read type",
            Call::ReadDimension => "read dim",
            Call::ReadArray => "read array",
            Call::ReadGroup => "read group",
            Call::ReadVdata => "read vdata",
            Call::ReadFields => "fields",
            Call::ReadValue => "read value",
            Call::ReadColumn => "column",
            Call::ListGroup => "list group",
            Call::PackNumberType => "pack type",
            Call::PackDimension => "pack dim",
            Call::PackArray => "pack array",
            Call::PackGroup => "pack group",
            Call::PackVdata => "pack vdata",
        }
    }

    /// Whether the call packs a record, so that there is no image.
    fn packs(self) -> bool {
        self as usize >= Call::PackNumberType as usize
    }

    fn is_on_records(self) -> bool {
        self as usize >= FILE_CALLS
    }

    /// Whether the call reads an element of an image.
    fn reads(self) -> bool {
        READS.iter().any(|(call, ..)| *call == self) || (self.is_on_records() && !self.packs())
    }

    /// Whether some input makes the call answer this number.
    pub fn can_answer(self, number: u64) -> bool {
        let others: &[u64] = match self {
            Call::Open | Call::View | Call::Choose => &[],
            Call::List => &[SMALL],
            Call::Find => &[ABSENT],
            Call::Size => &[CHAIN],
            Call::Copy => &[CHAIN, SMALL, NO_TABLE, SHORT_TABLE, NO_BLOCK, SHORT_BLOCK, TABLE_LOOP],
            Call::Add => &[PRESENT, NO_ROOM],
            Call::Replace | Call::Remove => &[ABSENT, NO_ROOM],
            Call::Undo => &[NO_EDIT, BAD_TRAILER, OTHER_DESK],
            Call::ReadNumberType | Call::ReadDimension => &[RECORD],
            Call::ReadArray | Call::ReadGroup => &[SMALL, RECORD],
            Call::ReadVdata | Call::ReadFields => &[SMALL, RECORD, TYPE],
            Call::ReadValue => &[RECORD, TYPE, NO_VALUE],
            Call::ReadColumn => &[SMALL, RECORD, TYPE, NO_VALUE],
            Call::ListGroup => &[SMALL, RECORD, DEEP],
            Call::PackNumberType => &[SMALL],
            Call::PackDimension | Call::PackArray | Call::PackGroup => &[SMALL, RECORD],
            Call::PackVdata => &[SMALL, RECORD, TYPE],
        };
        let opens = number <= TWICE && !self.packs();
        let reads = [ABSENT, NOT_STORED, STORAGE].contains(&number) && self.reads();
        number == 0 || opens || reads || others.contains(&number)
    }

    /// Whether the call can come to an answer by this cause.
    fn can_come(self, cause: Cause) -> bool {
        let heads = [Call::ReadVdata, Call::ReadFields, Call::ReadValue, Call::ReadColumn, Call::PackVdata];
        let values = [Call::ReadValue, Call::ReadColumn];
        let groups = [Call::ReadGroup, Call::ListGroup, Call::PackGroup];
        let interlaced = [Call::ReadDimension, Call::PackDimension];
        let tabled = [Call::ReadArray, Call::ReadGroup, Call::ReadVdata, Call::ReadFields, Call::ReadColumn];
        match cause {
            Cause::Whole => self.is_on_records() && !values.contains(&self) && self != Call::ListGroup,
            Cause::BytesBehind => [Call::ReadGroup, Call::ReadVdata, Call::ReadFields].contains(&self),
            Cause::Opening | Cause::Absent | Cause::Unstored | Cause::Extended => self.is_on_records() && !self.packs(),
            Cause::Length => [Call::ReadNumberType, Call::ReadDimension, Call::ReadArray].contains(&self),
            Cause::Cut => (heads.contains(&self) || groups.contains(&self)) && !self.packs(),
            Cause::Rank => self == Call::ReadArray || self == Call::PackArray,
            Cause::PairCount => self == Call::PackArray,
            Cause::OddMembers | Cause::ManyMembers => self == Call::PackGroup,
            Cause::LongName | Cause::LongClass => self == Call::PackGroup || self == Call::PackVdata,
            Cause::Interlace => heads.contains(&self) || interlaced.contains(&self),
            Cause::Version => heads.contains(&self) || groups.contains(&self),
            Cause::FieldEntries | Cause::NamesLength => self == Call::PackVdata,
            Cause::FieldCount | Cause::Order | Cause::Type | Cause::LowFirstType => heads.contains(&self),
            Cause::Size | Cause::Offset | Cause::RecordSize => heads.contains(&self),
            Cause::FirstRoom => self.packs() || tabled.contains(&self),
            Cause::SecondRoom => self == Call::ReadArray || self == Call::ReadVdata,
            Cause::Record => self == Call::ReadValue,
            Cause::NoRecords => self == Call::ReadColumn,
            Cause::ByRecord | Cause::ByField | Cause::Field | Cause::Component => values.contains(&self),
            Cause::DataAbsent | Cause::DataUnstored | Cause::DataExtended | Cause::DataShort => values.contains(&self),
            _ => self == Call::ListGroup,
        }
    }
}

/// Whether a call can come to an answer in this way, by the layout of the element's record.
fn can_go((call, layout, _): Read, way: Way) -> bool {
    let judges_record = call == Call::Size || call == Call::Copy;
    match way {
        Way::Opening | Way::Absent | Way::Unstored | Way::UnstoredExtended => layout.is_none(),
        Way::Plain | Way::Empty => layout.is_none() && call != Call::Choose,
        Way::Extended => call == Call::View || call == Call::Choose,
        Way::Current | Way::CurrentOfBoth | Way::Fallback => call == Call::Choose,
        Way::OpeningFallback | Way::UnstoredOverPlain | Way::UnstoredFallback => call == Call::Choose,
        Way::ExtendedOverPlain | Way::ExtendedFallback => call == Call::Choose,
        Way::OtherSizeAndKind | Way::RecordCut => layout.is_none() && judges_record,
        Way::OtherSizeOfFull | Way::OtherSizeOfSparse => layout.is_none() && judges_record,
        Way::LinkedEmpty | Way::OtherKind | Way::BlockLength | Way::BlockCount => layout.is_some(),
        Way::FirstLength => layout == Some(Layout::Full),
        Way::Linked => layout.is_some() && call == Call::Size,
        Way::Room => call == Call::Copy,
        Way::FirstEmpty | Way::FirstHole | Way::LaterHole | Way::OnlyHoles => {
            layout == Some(Layout::Sparse) && call == Call::Copy
        }
        Way::BlockZero => layout == Some(Layout::Full) && call == Call::Copy,
        _ => layout.is_some() && call == Call::Copy,
    }
}

/// Whether the type with a code can be met so.
fn can_meet(code: u16, meeting: Meeting) -> bool {
    match meeting {
        Meeting::Value(sort) => type_of(code).is_some_and(|known| known.has(sort)),
        _ => true,
    }
}

/// Adds each count of a table to the one in the same place.
fn add_each<const N: usize>(table: &mut [[u64; N]], other: &[[u64; N]]) {
    for (count, more) in table.as_flattened_mut().iter_mut().zip(other.as_flattened()) {
        *count += more;
    }
}

impl Tally {
    pub fn count(&mut self, call: Call, number: u64) {
        self.reached[call as usize][number as usize] += 1;
    }

    /// A granted call on a file or a slot of an element that is not stored yet.
    pub fn count_unstored(&mut self, call: Call) {
        let column = WITH_UNSTORED.iter().position(|known| *known == call);
        self.unstored[column.expect("a call that reads no element")] += 1;
    }

    /// The way to an answer, by the layout of the element's record where the call judges that.
    pub fn count_way(&mut self, call: Call, layout: Option<Layout>, way: Way) {
        let column = READS.iter().position(|(known, of, _)| (*known, *of) == (call, layout));
        self.gone.0[column.expect("a call that reads an element")][way as usize] += 1;
    }

    /// The index in the answer to a copy, where its number has one.
    pub fn count_index(&mut self, number: u64, index: u64) {
        if let Some(row) = WITH_INDEX.iter().position(|known| *known == number) {
            self.indices[row][usize::from(index > 0)] += 1;
        }
    }

    pub fn count_cause(&mut self, call: Call, cause: Cause) {
        self.caused.0[call as usize][cause as usize] += 1;
    }

    /// The types in a head that a call granted.
    pub fn count_types(&mut self, call: Call, head: &Vdata) {
        head.field_list().for_each(|field| self.count_meeting(field.number_type, Meeting::InHead(call)));
    }

    /// A value that was read, and the way to it.
    pub fn count_value(&mut self, value: &Value, cause: Cause) {
        self.count_meeting(value.number_type, Meeting::Read(cause));
        self.count_meeting(value.number_type, Meeting::Value(value.sort()));
    }

    /// A column that was read, and the way to it.
    pub fn count_column(&mut self, column: &Column, cause: Cause) {
        self.count_meeting(column.number_type, Meeting::Column(cause));
    }

    fn count_meeting(&mut self, code: u16, meeting: Meeting) {
        let row = CODES.iter().position(|known| *known == code);
        let column = MEETINGS.iter().position(|(known, _)| *known == meeting);
        self.types[row.expect("a known type")][column.expect("a known meeting")] += 1;
    }

    /// What was counted elsewhere too.
    pub fn add(&mut self, other: &Tally) {
        self.files += other.files;
        self.sequences += other.sequences;
        add_each(slice::from_mut(&mut self.unstored), &[other.unstored]);
        add_each(&mut self.reached, &other.reached);
        self.edits.add(&other.edits);
        add_each(&mut self.gone.0, &other.gone.0);
        add_each(&mut self.indices, &other.indices);
        add_each(&mut self.caused.0, &other.caused.0);
        add_each(&mut self.types, &other.types);
    }

    pub fn calls(&self) -> u64 {
        self.reached.iter().flatten().sum()
    }

    /// The numbers and rules that a whole run must reach with a call, but this one did not.
    pub fn never_reached(&self) -> Vec<String> {
        let name = |call: Call, what: &str| format!("{}: {what}", call.title());
        let numbers = cells(numbers_of(&CALLS)).filter(|(number, call)| self.number(*call, *number) == Some(0));
        let numbers = numbers.map(|(number, call)| name(call, &number.to_string()));
        let ways = WAYS.into_iter().flat_map(|(way, title)| self.ways(way).map(move |counted| (counted, title)));
        let ways = ways.filter(|((_, count), _)| *count == Some(0));
        let ways = ways.map(|(((_, _, read), _), title)| format!("{read}: {title}"));
        let causes = cells(CAUSES.into_iter()).filter(|((cause, _), call)| self.cause(*call, *cause) == Some(0));
        let causes = causes.map(|((_, title), call)| name(call, title));
        let indices = self.index_counts().filter(|(_, counts)| counts.contains(&Some(0)));
        let indices =
            indices.map(|(number, _)| name(Call::Copy, &format!("{number} at the first or at a later index")));
        let types = self.meetings().flat_map(|(code, counts)| counts.map(move |(title, count)| (code, title, count)));
        let types = types.filter(|(.., count)| *count == Some(0));
        let types = types.map(|(code, title, _)| format!("type {code}: {title}"));
        let unstored = WITH_UNSTORED.into_iter().zip(&self.unstored).filter(|(_, count)| **count == 0);
        let unstored = unstored.map(|(call, _)| name(call, "an element that is not stored yet"));
        let of_reading = ways.chain(indices).chain(causes).chain(types);
        numbers.chain(self.edits.never_reached()).chain(of_reading).chain(unstored).collect()
    }

    /// How often a call answered a number, where it can.
    fn number(&self, call: Call, number: u64) -> Option<u64> {
        call.can_answer(number).then(|| self.reached[call as usize][number as usize])
    }

    /// How often each call that reads an element came to an answer in a way, where it can.
    fn ways(&self, way: Way) -> impl Iterator<Item = (Read, Option<u64>)> + '_ {
        let count =
            move |(read, counts): (Read, &[u64; WAYS.len()])| (read, can_go(read, way).then_some(counts[way as usize]));
        READS.into_iter().zip(&self.gone.0).map(count)
    }

    /// How often a copy was refused with each number at the first table or block, and at a later one. The first table repeats
    /// none.
    fn index_counts(&self) -> impl Iterator<Item = (u64, [Option<u64>; 2])> + '_ {
        let counts = |(number, [first, later]): (u64, &[u64; 2])| {
            (number, [(number != TABLE_LOOP).then_some(*first), Some(*later)])
        };
        WITH_INDEX.into_iter().zip(&self.indices).map(counts)
    }

    /// How often a call came to an answer by a cause, where it can.
    fn cause(&self, call: Call, cause: Cause) -> Option<u64> {
        call.can_come(cause).then(|| self.caused.0[call as usize][cause as usize])
    }

    /// The code of each type, and how often it was met, where it can be.
    fn meetings(&self) -> impl Iterator<Item = (u16, impl Iterator<Item = (&'static str, Option<u64>)> + '_)> {
        CODES.into_iter().zip(&self.types).map(|(code, counts)| {
            let count = move |((meeting, title), count): ((Meeting, &'static str), &u64)| {
                (title, can_meet(code, meeting).then_some(*count))
            };
            (code, MEETINGS.into_iter().zip(counts).map(count))
        })
    }
}

/// The numbers that some of these calls can answer.
fn numbers_of(calls: &[Call]) -> impl Iterator<Item = u64> + '_ {
    (0..NUMBERS as u64).filter(|number| calls.iter().any(|call| call.can_answer(*number)))
}

/// Each row with each call.
fn cells<R: Copy>(rows: impl Iterator<Item = R>) -> impl Iterator<Item = (R, Call)> {
    rows.flat_map(|row| CALLS.into_iter().map(move |call| (row, call)))
}

impl fmt::Display for Tally {
    fn fmt(&self, out: &mut fmt::Formatter) -> fmt::Result {
        let (on_files, on_records) = CALLS.split_at(FILE_CALLS);
        for calls in [on_files, on_records] {
            head(out, "number", calls.iter().map(|call| call.title()))?;
            for number in numbers_of(calls) {
                row(out, &number.to_string(), calls.iter().map(|call| self.number(*call, number)))?;
            }
        }
        head(out, "reading", READS.iter().map(|(_, _, title)| *title))?;
        for (way, title) in WAYS {
            row(out, title, self.ways(way).map(|(_, count)| count))?;
        }
        head(out, "index of a copy", ["first", "later"].into_iter())?;
        for (number, counts) in self.index_counts() {
            row(out, &number.to_string(), counts.into_iter())?;
        }
        head(out, "not stored", WITH_UNSTORED.iter().map(|call| call.title()))?;
        row(out, "0 granted", self.unstored.iter().copied().map(Some))?;
        head(out, "record", on_records.iter().map(|call| call.title()))?;
        for (cause, title) in CAUSES {
            row(out, title, on_records.iter().map(|call| self.cause(*call, cause)))?;
        }
        head(out, "type", MEETINGS.iter().map(|(_, title)| *title))?;
        for (code, counts) in self.meetings() {
            row(out, &code.to_string(), counts.map(|(_, count)| count))?;
        }
        write!(out, "{}", self.edits)
    }
}

fn head<'a>(out: &mut fmt::Formatter, title: &str, columns: impl Iterator<Item = &'a str>) -> fmt::Result {
    write!(out, "{title:<21}")?;
    for column in columns {
        write!(out, "{column:>11}")?;
    }
    writeln!(out)
}

/// A line of counts, a dash where a count is not possible.
fn row(out: &mut fmt::Formatter, title: &str, counts: impl Iterator<Item = Option<u64>>) -> fmt::Result {
    write!(out, "{title:<21}")?;
    for count in counts {
        write!(out, "{:>11}", count.map_or("-".into(), |count| count.to_string()))?;
    }
    writeln!(out)
}
