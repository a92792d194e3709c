//! The rules by which calls are refused.
//!
//! Written by tools/interface from crates/hdf4/src, crates/answer/src and VERSION.

use std::fmt;

/// The rule that a call's input breaks. Its number is that of the refusal.
#[derive(Clone, Copy, Debug, PartialEq, Eq, Hash)]
#[non_exhaustive]
pub enum Rule {
    /// The image is longer than its buffer or than [`MOST_BYTES`](crate::MOST_BYTES), or an edit would make it so.
    TooLong,
    /// The image is shorter than 4 bytes, or has other first bytes.
    NotHdf,
    /// A block is not wholly inside the image.
    DirCut,
    /// The next block is one already walked.
    DirLoop,
    /// A block shares a byte with the header or an earlier block.
    DirOver,
    /// There is a 257th block or a 4,097th slot.
    DirBig,
    /// A tag is one that no live slot may have, or that no edit takes.
    BadTag,
    /// An element ends past the image.
    Outside,
    /// An element touches the header or a block.
    OnDirectory,
    /// Two live slots have the same base tag and reference.
    Twice,
    /// No live slot has that base tag and reference.
    Absent,
    /// The element is extended, and not of a kind that the call reads.
    Storage,
    /// The record of the element's linked blocks breaks its layout.
    Chain,
    /// The lent output is too short.
    Small,
    /// A record breaks its layout.
    Record,
    /// A number type is not known, also less 16384.
    Type,
    /// The Vdata has no such record, field or component.
    NoValue,
    /// An element with that base tag and reference is there already.
    Present,
    /// The buffer is shorter than the new image.
    NoRoom,
    /// The image carries no trailer, so there is nothing to undo.
    NoEdit,
    /// The trailer breaks a rule; the place is the trailer's.
    BadTrailer,
    /// Groups are nested past 16; the place is the slot of the 16th.
    Deep,
    /// A table of the element's linked blocks is absent, not stored or extended, or its reference is 0; the index is the table's.
    NoTable,
    /// A table of the element's linked blocks has too few bytes for its entries; the index is the table's.
    ShortTable,
    /// A linked block is absent, not stored or extended, or its reference is 0 by a record of 22 bytes; the index is the block's,
    /// through the whole element.
    NoBlock,
    /// A linked block has fewer bytes than are taken from it; the index is the block's, through the whole element.
    ShortBlock,
    /// A table of the element's linked blocks is one already walked, or a 257th; the index is the table's.
    TableLoop,
    /// The element is named and not stored yet: offset and length of its slot are 4294967295.
    NotStored,
    /// The trailer of the newest edit is another desk's; the place is the trailer's.
    OtherDesk,
    /// A rule that this crate does not know, by its number: the library that is linked is a newer one.
    Unknown(u64),
}

impl Rule {
    /// The rule with a refusal's number.
    pub(crate) fn new(number: u64) -> Rule {
        match number {
            hdf4_sys::TOO_LONG => Rule::TooLong,
            hdf4_sys::NOT_HDF => Rule::NotHdf,
            hdf4_sys::DIR_CUT => Rule::DirCut,
            hdf4_sys::DIR_LOOP => Rule::DirLoop,
            hdf4_sys::DIR_OVER => Rule::DirOver,
            hdf4_sys::DIR_BIG => Rule::DirBig,
            hdf4_sys::BAD_TAG => Rule::BadTag,
            hdf4_sys::OUTSIDE => Rule::Outside,
            hdf4_sys::ON_DIRECTORY => Rule::OnDirectory,
            hdf4_sys::TWICE => Rule::Twice,
            hdf4_sys::ABSENT => Rule::Absent,
            hdf4_sys::STORAGE => Rule::Storage,
            hdf4_sys::CHAIN => Rule::Chain,
            hdf4_sys::SMALL => Rule::Small,
            hdf4_sys::RECORD => Rule::Record,
            hdf4_sys::TYPE => Rule::Type,
            hdf4_sys::NO_VALUE => Rule::NoValue,
            hdf4_sys::PRESENT => Rule::Present,
            hdf4_sys::NO_ROOM => Rule::NoRoom,
            hdf4_sys::NO_EDIT => Rule::NoEdit,
            hdf4_sys::BAD_TRAILER => Rule::BadTrailer,
            hdf4_sys::DEEP => Rule::Deep,
            hdf4_sys::NO_TABLE => Rule::NoTable,
            hdf4_sys::SHORT_TABLE => Rule::ShortTable,
            hdf4_sys::NO_BLOCK => Rule::NoBlock,
            hdf4_sys::SHORT_BLOCK => Rule::ShortBlock,
            hdf4_sys::TABLE_LOOP => Rule::TableLoop,
            hdf4_sys::NOT_STORED => Rule::NotStored,
            hdf4_sys::OTHER_DESK => Rule::OtherDesk,
            other => Rule::Unknown(other),
        }
    }

    /// The refusal's number, from 1 on.
    pub fn number(self) -> u64 {
        match self {
            Rule::TooLong => hdf4_sys::TOO_LONG,
            Rule::NotHdf => hdf4_sys::NOT_HDF,
            Rule::DirCut => hdf4_sys::DIR_CUT,
            Rule::DirLoop => hdf4_sys::DIR_LOOP,
            Rule::DirOver => hdf4_sys::DIR_OVER,
            Rule::DirBig => hdf4_sys::DIR_BIG,
            Rule::BadTag => hdf4_sys::BAD_TAG,
            Rule::Outside => hdf4_sys::OUTSIDE,
            Rule::OnDirectory => hdf4_sys::ON_DIRECTORY,
            Rule::Twice => hdf4_sys::TWICE,
            Rule::Absent => hdf4_sys::ABSENT,
            Rule::Storage => hdf4_sys::STORAGE,
            Rule::Chain => hdf4_sys::CHAIN,
            Rule::Small => hdf4_sys::SMALL,
            Rule::Record => hdf4_sys::RECORD,
            Rule::Type => hdf4_sys::TYPE,
            Rule::NoValue => hdf4_sys::NO_VALUE,
            Rule::Present => hdf4_sys::PRESENT,
            Rule::NoRoom => hdf4_sys::NO_ROOM,
            Rule::NoEdit => hdf4_sys::NO_EDIT,
            Rule::BadTrailer => hdf4_sys::BAD_TRAILER,
            Rule::Deep => hdf4_sys::DEEP,
            Rule::NoTable => hdf4_sys::NO_TABLE,
            Rule::ShortTable => hdf4_sys::SHORT_TABLE,
            Rule::NoBlock => hdf4_sys::NO_BLOCK,
            Rule::ShortBlock => hdf4_sys::SHORT_BLOCK,
            Rule::TableLoop => hdf4_sys::TABLE_LOOP,
            Rule::NotStored => hdf4_sys::NOT_STORED,
            Rule::OtherDesk => hdf4_sys::OTHER_DESK,
            Rule::Unknown(number) => number,
        }
    }

    /// The refusal's name, as `TOO_LONG`.
    pub fn name(self) -> &'static str {
        self.words().1
    }

    /// What the rule says, in words for a person.
    pub fn says(self) -> &'static str {
        self.words().2
    }

    fn words(self) -> (u64, &'static str, &'static str) {
        let number = self.number();
        let known = hdf4_sys::REFUSALS.iter().find(|refusal| refusal.0 == number);
        known.copied().unwrap_or((number, "UNKNOWN", "a rule that this version does not know"))
    }
}

/// The name, a colon and what the rule says.
impl fmt::Display for Rule {
    fn fmt(&self, f: &mut fmt::Formatter<'_>) -> fmt::Result {
        write!(f, "{}: {}", self.name(), self.says())
    }
}
