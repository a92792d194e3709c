//! What must have a case, written down from the paper: for each call the rules that can refuse it, and of each two that one
//! input can break the one that is judged first. A rule is named by its number and, where others have the same, by a word.

use super::{name_of_call, Case, Variant, NO_RULE};
use crate::tally::{Call, CALLS};
use std::collections::BTreeSet;

/// The last number that a call answers.
const LAST_NUMBER: u64 = 30;

type Rules = &'static [&'static str];

/// What must be shown of some calls: that they are granted; each rule alone; the rules ahead before those of opening and those
/// behind, and those of opening before those behind; rules that are judged each before each of others; and further rules behind,
/// in stages, those of each stage judged before those of all later ones. What is shown of a sparse record, and of an old trailer, is
/// listed apart.
struct Must {
    calls: &'static [Call],
    variant: Variant,
    ahead: Rules,
    opening: Rules,
    behind: Rules,
    order: &'static [(Rules, Rules)],
    stages: &'static [Rules],
}

/// The name of a call, and the rule or the two rules of which there must be a case.
type Shown = (String, Vec<&'static str>);

/// Complains of what must have a case and has none, and of cases that the list does not name. Answers how long the list is.
pub fn judge(cases: &[Case]) -> Result<usize, String> {
    let listed: BTreeSet<Shown> = ALL.iter().flat_map(Must::shown).collect();
    let present: BTreeSet<Shown> = cases.iter().map(shown_by).collect();
    let words = |shown: &Shown| format!("{}: {}", shown.0, shown.1.join(" before "));
    let missing: Vec<String> = listed.difference(&present).map(words).collect();
    let unlisted = present.difference(&listed).map(words).chain(numbers_missing(&listed));
    let unlisted: Vec<String> = unlisted.collect();
    match (missing.as_slice(), unlisted.as_slice()) {
        ([], []) => Ok(listed.len()),
        ([], unlisted) => Err(format!("refusals, not in the list: {}", unlisted.join("; "))),
        (missing, _) => Err(format!("refusals, without a case: {}", missing.join("; "))),
    }
}

/// The numbers that a call can answer and that the list does not name for it. Some are shown for opening alone.
fn numbers_missing(listed: &BTreeSet<Shown>) -> Vec<String> {
    let asked = |(call, number): &(Call, u64)| {
        let other = [3, 5, 6, 8, 9, 10].contains(number) && *call != Call::Open;
        call.can_answer(*number) && !other
    };
    let names = |(call, number): &(Call, u64)| {
        let (call, number) = (format!("{call:?}"), number.to_string());
        listed.iter().any(|(listed, rules)| *listed == call && rules.len() == 1 && number_of(rules[0]) == number)
    };
    let all = CALLS.into_iter().flat_map(|call| (0..=LAST_NUMBER).map(move |number| (call, number)));
    all.filter(|entry| asked(entry) && !names(entry)).map(|(call, number)| format!("{call:?}: {number}")).collect()
}

/// The number of a rule.
pub fn number_of(rule: &str) -> &str {
    rule.split(' ').next().unwrap_or(rule)
}

fn shown_by(case: &Case) -> Shown {
    let call = name_of_call(case.steps[0].ask.call, case.variant);
    (call, case.steps.iter().map(|step| step.rule).collect())
}

impl Must {
    fn shown(&self) -> Vec<Shown> {
        let Must { calls, variant, ahead, opening, behind, order, stages } = *self;
        let behind = &[behind, &stages.concat()].concat();
        let alone = [&[NO_RULE], ahead, opening, behind].concat();
        let mut rules: Vec<Vec<&'static str>> = alone.into_iter().map(|rule| vec![rule]).collect();
        let mut add = |first: &[&'static str], second: &[&'static str]| {
            rules.extend(first.iter().flat_map(|first| second.iter().map(|second| vec![*first, *second])));
        };
        [(ahead, opening)].iter().chain(order).for_each(|(first, second)| add(first, second));
        [ahead, opening].iter().for_each(|first| add(first, behind));
        stages.iter().enumerate().for_each(|(at, first)| add(first, &stages[at + 1..].concat()));
        let of = |call: &Call| {
            let name = name_of_call(*call, variant);
            rules.iter().map(move |rules| (name.clone(), rules.clone()))
        };
        calls.iter().flat_map(of).collect()
    }
}

const ALL: [Must; 34] = [
    OPEN,
    FIND,
    LIST,
    VIEW,
    SIZE,
    SIZE_SPARSE,
    COPY,
    COPY_LONG,
    COPY_FAR,
    COPY_SPARSE,
    COPY_SPARSE_LONG,
    COPY_SPARSE_FAR,
    CHOOSE,
    ADD,
    REPLACE_REMOVE,
    UNDO,
    UNDO_TRAILER,
    UNDO_OLD,
    UNDO_OLD_TRAILER,
    NUMBER_TYPE,
    DIMENSION,
    ARRAY,
    GROUP,
    LIST_GROUP,
    HEAD,
    VDATA,
    FIELDS,
    VALUE,
    COLUMN,
    PACK_NUMBER_TYPE,
    PACK_DIMENSION,
    PACK_ARRAY,
    PACK_GROUP,
    PACK_VDATA,
];

/// A call that reads an image.
const fn reading(calls: &'static [Call], behind: Rules, order: &'static [(Rules, Rules)]) -> Must {
    Must { calls, variant: Variant::Usual, ahead: &["1"], opening: OPENING, behind, order, stages: &[] }
}

/// A call on a buffer. The length that it is given may be past the buffer, or past the limit.
const fn editing(calls: &'static [Call], behind: Rules, order: &'static [(Rules, Rules)]) -> Must {
    Must { ahead: &["1 buffer", "1 limit"], ..reading(calls, behind, order) }
}

/// A call that opens nothing.
const fn packing(calls: &'static [Call], behind: Rules, order: &'static [(Rules, Rules)]) -> Must {
    Must { ahead: &[], opening: &[], ..reading(calls, behind, order) }
}

/// Opening comes first in every call. Shown for each are its length, its first bytes, a fault of the chain and one of a slot.
const OPENING: Rules = &["2", "4", "7"];

/// Opening itself. A block already walked lies inside: 4 and 3 do not meet. A head that is cut has no next block. That a block
/// which is cut meets 1 takes a file past the limit with a block at its end, which no case holds; one far outside meets 1 too.
const OPEN: Must = Must {
    ahead: &[],
    opening: &[],
    behind: &["1", "2", "3 header", "3 block", "4", "5", "6 blocks", "6 slots", "7", "8", "9", "10"],
    order: &[
        (&["1"], &["2", "3 header", "4", "5", "6 blocks", "6 slots", "7", "8", "9", "10"]),
        (&["2"], &["3 header", "3 block", "4", "5", "6 blocks", "6 slots", "7", "8", "9", "10"]),
        // Of one block.
        (&["4"], &["6 blocks", "6 slots", "5"]),
        (&["6 blocks"], &["3 header", "3 block", "5"]),
        (&["3 header"], &["6 slots", "5"]),
        (&["6 slots"], &["3 block", "5"]),
        (&["3 block"], &["5"]),
        // Of a block and the next.
        (&["6 blocks", "6 slots", "3 block", "5"], &["4"]),
        (&["3 block", "5"], &["6 blocks", "6 slots"]),
        (&["5"], &["3 header", "3 block"]),
        // Of the chain and a slot.
        (&["3 header", "3 block", "4", "5", "6 blocks", "6 slots"], SLOT),
        // Of one slot, or of a slot and a later one.
        (SLOT, SLOT),
    ],
    ..reading(&[Call::Open], &[], &[])
};

const SLOT: Rules = &["7", "8", "9", "10"];

const FIND: Must = reading(&[Call::Find], &["11"], &[]);

const LIST: Must = reading(&[Call::List], &["14"], &[]);

/// A pair that is absent has no storage, and no slot that could be not stored yet.
const VIEW: Must = reading(&[Call::View], &["11", "29", "12"], &[(&["29"], &["12"])]);

/// A record under 4 bytes has no kind. The chain is not judged.
const SIZE: Must = Must {
    order: &[(&["29"], &["13 cut"]), (&["13 cut"], &["12"])],
    stages: &[&["29"], &["12"], BAD_RECORD],
    ..reading(&[Call::Size], &["11", "13 cut"], &[])
};

const BAD_RECORD: Rules = &["13 size", "13 first_len", "13 blk_len", "13 num_blk"];

/// A sparse record has no first_len.
const SIZE_SPARSE: Must = Must {
    variant: Variant::Sparse,
    order: &[(&["29"], &["13 cut"]), (&["13 cut"], &["12"])],
    stages: &[&["29"], &["12"], BAD_SPARSE_RECORD],
    ..reading(&[Call::Size], &["13 cut"], &[])
};

const BAD_SPARSE_RECORD: Rules = &["13 size", "13 blk_len", "13 num_blk"];

/// A record under 4 bytes has no length, and so no room that is too small, and no table. The tables and blocks are those of an
/// element of four blocks, two for each table, or of a longer one that would need a third table. A first table repeats none, and
/// one that repeats another is there and whole.
const COPY: Must = Must {
    behind: &["11", "13 cut"],
    order: &[(&["29"], &["13 cut"]), (&["13 cut"], &["12"])],
    stages: &[
        &["29"],
        &["12"],
        BAD_RECORD,
        &["14"],
        &["23 zero", "23 absent", "23 unstored", "23 extended"],
        &["24"],
        &["25 zero", "25 absent", "25 unstored", "25 extended"],
        &["26"],
        &["25 second zero", "25 second absent", "25 second unstored", "25 second extended"],
        &["26 second"],
        &["27 twice"],
        &["23 second zero", "23 second absent", "23 second unstored", "23 second extended"],
        &["24 second"],
        &["25 third zero", "25 third absent", "25 third unstored", "25 third extended"],
        &["26 third"],
        &["25 last zero", "25 last absent", "25 last unstored", "25 last extended"],
        &["26 last"],
        &["27 third"],
        &["23 third zero", "23 third absent"],
    ],
    ..reading(&[Call::Copy], &[], &[])
};

/// A chain that comes to a 257th table, and the same where it is the 256th and is broken or has a broken block.
const COPY_LONG: Must = Must {
    behind: &["25 256th zero"],
    order: &[
        (&["23 zero", "23 absent", "23 unstored", "23 extended", "24"], &["27 257th"]),
        (&["25 zero", "25 absent", "25 unstored", "25 extended", "26", "27 twice"], &["27 257th"]),
        (&["14", "27 257th"], &["25 256th zero"]),
    ],
    stages: &[&["14"], &["27 257th"], AT_256TH],
    ..reading(&[Call::Copy], &[], &[])
};

const AT_256TH: Rules = &[
    "23 256th zero",
    "23 256th absent",
    "23 256th unstored",
    "23 256th extended",
    "24 256th",
    "25 256th absent",
    "25 256th unstored",
    "25 256th extended",
    "26 256th",
];

/// An index of more than 16 bits.
const COPY_FAR: Must =
    Must { stages: &[&["14"], &["25 far zero", "25 far absent"]], ..reading(&[Call::Copy], &[], &[]) };

/// A sparse record has no first_len. A block of reference 0 is a hole, and a first block is never too short.
const COPY_SPARSE: Must = Must {
    variant: Variant::Sparse,
    order: &[(&["29"], &["13 cut"]), (&["13 cut"], &["12"])],
    stages: &[
        &["29"],
        &["12"],
        BAD_SPARSE_RECORD,
        &["14"],
        &["23 zero", "23 absent", "23 unstored", "23 extended"],
        &["24"],
        &["25 absent", "25 unstored", "25 extended"],
        &["25 second absent", "25 second unstored", "25 second extended"],
        &["26 second"],
        &["27 twice"],
        &["23 second zero", "23 second absent", "23 second unstored", "23 second extended"],
        &["24 second"],
        &["25 third absent", "25 third unstored", "25 third extended"],
        &["26 third"],
        &["25 last absent", "25 last unstored", "25 last extended"],
        &["26 last"],
        &["27 third"],
        &["23 third zero", "23 third absent"],
    ],
    ..reading(&[Call::Copy], &["13 cut"], &[])
};

const COPY_SPARSE_LONG: Must = Must {
    variant: Variant::Sparse,
    order: &[
        (&["23 zero", "23 absent", "23 unstored", "23 extended", "24"], &["27 257th"]),
        (&["25 absent", "25 unstored", "25 extended", "27 twice"], &["27 257th"]),
    ],
    stages: &[&["14"], &["27 257th"], AT_256TH],
    ..reading(&[Call::Copy], &[], &[])
};

const COPY_SPARSE_FAR: Must =
    Must { variant: Variant::Sparse, stages: &[&["14"], &["25 far absent"]], ..reading(&[Call::Copy], &[], &[]) };

/// Today's file answers wherever it has the pair. One that neither file has is in no other trouble.
const CHOOSE: Must = Must {
    order: &[(OPENING_FALLBACK, &["11"])],
    stages: &[OPENING_FALLBACK, &["29 current"], &["12 current"], &["29 fallback"], &["12 fallback"]],
    ..reading(&[Call::Choose], &["11"], &[])
};

const OPENING_FALLBACK: Rules = &["1 fallback", "2 fallback", "4 fallback", "7 fallback"];

const ADD: Must = editing(
    &[Call::Add],
    &["7 edit", "18", "6 edit blocks", "6 edit slots", "1 edit", "19"],
    &[
        (&["7 edit"], &["18", "6 edit blocks", "6 edit slots", "1 edit", "19"]),
        (&["18"], &["6 edit blocks", "6 edit slots", "1 edit", "19"]),
        (&["6 edit blocks", "6 edit slots"], &["1 edit", "19"]),
        (&["1 edit"], &["19"]),
    ],
);

/// Neither takes a new slot.
const REPLACE_REMOVE: Must = editing(
    &[Call::Replace, Call::Remove],
    &["7 edit", "11", "1 edit", "19"],
    &[(&["7 edit"], &["11", "1 edit", "19"]), (&["11"], &["1 edit", "19"]), (&["1 edit"], &["19"])],
);

/// Without a trailer there is none that breaks a rule or is another desk's.
const UNDO: Must = editing(&[Call::Undo], &["20"], &[]);

/// Two rules of a trailer answer the same. A length before is not too long and too short at once. That a trailer meets a length
/// past the limit takes a file with a trailer there, which no case holds. The trailer is judged whole before its desk.
const UNDO_TRAILER: Must = Must {
    ahead: &["1 buffer"],
    order: &[
        (&["21 length before", "21 past"], &["21 bytes altered", "21 place", "21 padding"]),
        (&["21 length before", "21 past"], &["21 previous", "21 restored"]),
        (&["21 bytes altered"], &["21 place", "21 padding", "21 previous", "21 restored"]),
        (&["21 place"], &["21 padding", "21 previous", "21 restored"]),
        (&["21 padding"], &["21 previous", "21 restored"]),
        (&["21 previous"], &["21 restored"]),
    ],
    stages: &[BAD_TRAILER, &["30"]],
    ..editing(&[Call::Undo], &[], &[])
};

const BAD_TRAILER: Rules =
    &["21 length before", "21 past", "21 bytes altered", "21 place", "21 padding", "21 previous", "21 restored"];

/// The same of a trailer of the old form, which is desk 0's.
const UNDO_OLD: Must = Must { variant: Variant::OldTrailer, ..UNDO };

const UNDO_OLD_TRAILER: Must = Must { variant: Variant::OldTrailer, ..UNDO_TRAILER };

const NUMBER_TYPE: Must =
    Must { stages: &[&["29"], &["12"], &["15"]], ..reading(&[Call::ReadNumberType], &["11"], &[]) };

const DIMENSION: Must = Must {
    stages: &[&["29"], &["12"], &["15 length", "15 interlace"]],
    ..reading(&[Call::ReadDimension], &["11"], &[])
};

/// An array of rank 0 has no sizes, and so room enough for them.
const ARRAY: Must = Must {
    order: &[(&["15 length"], &["14 sizes", "14 pairs"]), (&["15 rank"], &["14 pairs"])],
    stages: &[&["29"], &["12"], &["15 length", "15 rank", "14 sizes", "14 pairs"]],
    ..reading(&[Call::ReadArray], &["11"], &[])
};

const GROUP: Must = Must {
    stages: &[&["29"], &["12"], &["15 cut", "15 version"], &["14"]],
    ..reading(&[Call::ReadGroup], &["11"], &[])
};

/// A named group that is absent has no pairs. At each pair its place comes first, then the group that it is, then later pairs.
const LIST_GROUP: Must = Must {
    behind: &[
        "11 named",
        "29 named",
        "12 named",
        "15 named",
        "14 place",
        "14 4,097th",
        "22",
        "11 member",
        "29 member",
        "12 member",
        "15 member",
        "14 later",
        "11 later",
        "29 later",
        "12 later",
        "15 later",
    ],
    order: &[
        (&["29 named"], &["12 named", "15 named"]),
        (&["12 named"], &["15 named"]),
        (&["29 named", "12 named", "15 named"], &["14 place", "14 4,097th", "22"]),
        (&["29 named", "12 named", "15 named"], BAD_MEMBER),
        (&["14 place", "14 4,097th"], &["22"]),
        (&["14 place", "14 4,097th", "22"], BAD_MEMBER),
        (&["22"], &["14 later"]),
        (&["29 member"], &["12 member", "15 member"]),
        (&["12 member"], &["15 member"]),
        (BAD_MEMBER, &["14 later", "11 later", "29 later", "12 later", "15 later"]),
    ],
    ..reading(&[Call::ListGroup], &[], &[])
};

const BAD_MEMBER: Rules = &["11 member", "29 member", "12 member", "15 member"];

/// The head of a Vdata, in all calls that read it.
const HEAD: Must = Must {
    behind: &[
        "11",
        "29",
        "12",
        "15 cut",
        "15 version",
        "15 interlace",
        "15 count",
        "15 order",
        "16",
        "16 low first",
        "15 size",
        "15 size low first",
        "15 offset",
        "15 record size",
    ],
    order: &[
        (&["29"], &["12"]),
        (&["29", "12"], &["15 cut", "15 version", "15 interlace", "15 count", "15 order"]),
        (&["29", "12"], TYPES),
        (&["29", "12"], SIZES),
        (&["15 cut", "15 version", "15 interlace", "15 count", "15 order"], TYPES),
        (TYPES, SIZES),
    ],
    ..reading(&[Call::ReadVdata, Call::ReadFields, Call::ReadValue, Call::ReadColumn], &[], &[])
};

/// A code of no type, below 16384 and from there on.
const TYPES: Rules = &["16", "16 low first"];

/// What is judged by the types: a size by the width of its own, in either byte order.
const SIZES: Rules = &["15 size", "15 size low first", "15 offset", "15 record size"];

/// The rules of a head that is there, but for its count.
const BAD_HEAD: Rules = &[
    "29",
    "12",
    "15 cut",
    "15 version",
    "15 interlace",
    "15 order",
    "16",
    "16 low first",
    "15 size",
    "15 size low first",
    "15 offset",
    "15 record size",
];

const VDATA: Must = reading(
    &[Call::ReadVdata],
    &["14 fields", "14 names"],
    &[(BAD_HEAD, &["14 fields", "14 names"]), (&["15 count"], &["14 fields"])],
);

const FIELDS: Must = reading(&[Call::ReadFields], &["14"], &[(BAD_HEAD, &["14"]), (&["15 count"], &["14"])]);

/// A head and data that are both absent answer the same.
const VALUE: Must = reading(
    &[Call::ReadValue],
    &["17 record", "17 field", "17 component", "11 data", "29 data", "12 data", "15 data"],
    &[
        (&["11"], &["17 record", "17 field", "17 component", "29 data", "12 data", "15 data"]),
        (BAD_HEAD, &["17 record", "17 field", "17 component", "11 data", "29 data", "12 data", "15 data"]),
        (&["15 count"], &["17 record"]),
        (&["17 record", "17 field", "17 component"], &["11 data", "29 data", "12 data", "15 data"]),
        (&["29 data"], &["12 data", "15 data"]),
        (&["12 data"], &["15 data"]),
    ],
);

/// So do they for a column. Where there are no records neither data nor room are asked about.
const COLUMN: Must = reading(
    &[Call::ReadColumn],
    &["17 field", "17 component", "11 data", "29 data", "12 data", "15 data", "14"],
    &[
        (&["11"], &["17 field", "17 component", "29 data", "12 data", "15 data", "14"]),
        (BAD_HEAD, &["17 field", "17 component", "11 data", "29 data", "12 data", "15 data", "14"]),
        (&["15 count"], &["17 field"]),
        (&["17 field", "17 component"], &["11 data", "29 data", "12 data", "15 data", "14"]),
        (&["29 data"], &["12 data", "15 data"]),
        (&["12 data"], &["15 data"]),
        (&["11 data", "29 data", "12 data", "15 data"], &["14"]),
    ],
);

const PACK_NUMBER_TYPE: Must = packing(&[Call::PackNumberType], &["14"], &[]);

const PACK_DIMENSION: Must = packing(&[Call::PackDimension], &["15", "14"], &[(&["15"], &["14"])]);

const PACK_ARRAY: Must =
    packing(&[Call::PackArray], &["15 rank", "15 pairs", "14"], &[(&["15 rank", "15 pairs"], &["14"])]);

const PACK_GROUP: Must = packing(
    &[Call::PackGroup],
    &["15 members", "15 name", "15 class", "15 version", "14"],
    &[(&["15 members", "15 name", "15 class", "15 version"], &["14"])],
);

const PACK_VDATA: Must = Must {
    behind: &[
        "15 entries",
        "15 names",
        "15 name",
        "15 class",
        "15 version",
        "15 interlace",
        "15 count",
        "15 order",
        "16",
        "16 low first",
        "15 size",
        "15 size low first",
        "15 offset",
        "15 record size",
        "14",
    ],
    order: &[
        (&["15 entries", "15 names", "15 name", "15 class"], TYPES),
        (&["15 entries", "15 names", "15 name", "15 class"], &["14"]),
        (&["15 version", "15 interlace", "15 count", "15 order"], TYPES),
        (&["15 version", "15 interlace", "15 count", "15 order"], &["14"]),
        (TYPES, SIZES),
        (TYPES, &["14"]),
        (SIZES, &["14"]),
    ],
    ..packing(&[Call::PackVdata], &[], &[])
};
