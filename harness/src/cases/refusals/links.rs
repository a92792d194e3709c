//! Copies of linked elements whose tables or blocks are broken. The first fault that is met on the walk answers, at the slot of
//! the element, with the index of the table or of the block. Where a reference is 0, there is an element with the reference 0.
//! Sizes of the same elements: none of these faults is met.

use super::ask::{Ask, Written};
use super::elements::{copy, four_blocks, linked, nine_bytes, of_record, record, size, PLAIN_20, SMALL};
use super::elements::{put_element_length, put_link_ref};
use super::elements::{BLOCK, LAST_BLOCK, SECOND_BLOCK, SECOND_TABLE, TABLE, THIRD_BLOCK};
use super::{broken, fault, granted, over, Case, Fault, UNSTORED};
use crate::cases::pieces::{file, numbers16, Image};
use crate::storage::Layout;

/// Where the fields of a table stand in it.
const NEXT_REF: usize = 0;
pub const BLOCK_REF: usize = 2;
pub const SECOND_REF: usize = 4;

const EXTENDED_20: u16 = 16404;
const OTHER_TAG: u16 = 21;

// ---- The element of four blocks

const NO_TABLE: [Fault; 4] = [
    broken("23 zero", "table 0", [23, 22, 0], |ask| put_link_ref(&mut ask.image, 0)),
    broken("23 absent", "no table", [23, 22, 0], absent::<TABLE>),
    broken("23 unstored", "a table that is not stored yet", [23, 22, 0], unstored::<TABLE>),
    broken("23 extended", "an extended table", [23, 22, 0], extended::<TABLE>),
];

const SHORT_TABLE: [Fault; 2] = [
    broken("24", "a table of 5 bytes", [24, 22, 0], shorter::<TABLE, 5>),
    broken("24", "a table of no bytes", [24, 22, 0], shorter::<TABLE, 0>),
];

const NO_BLOCK: [Fault; 4] = [
    broken("25 zero", "block 0", [25, 22, 0], zero::<TABLE, BLOCK_REF>),
    broken("25 absent", "no block", [25, 22, 0], absent::<BLOCK>),
    broken("25 unstored", "a block that is not stored yet", [25, 22, 0], unstored::<BLOCK>),
    broken("25 extended", "an extended block", [25, 22, 0], extended::<BLOCK>),
];

const SHORT_BLOCK: [Fault; 2] = [
    broken("26", "a block of 2 bytes", [26, 22, 0], shorter::<BLOCK, 2>),
    broken("26", "a block of no bytes", [26, 22, 0], shorter::<BLOCK, 0>),
];

const NO_SECOND_BLOCK: [Fault; 4] = [
    broken("25 second zero", "a second block 0", [25, 22, 1], zero::<TABLE, SECOND_REF>),
    broken("25 second absent", "no second block", [25, 22, 1], absent::<SECOND_BLOCK>),
    broken("25 second unstored", "a second block that is not stored yet", [25, 22, 1], unstored::<SECOND_BLOCK>),
    broken("25 second extended", "an extended second block", [25, 22, 1], extended::<SECOND_BLOCK>),
];

const SHORT_SECOND_BLOCK: [Fault; 1] =
    [broken("26 second", "a second block of 1 byte", [26, 22, 1], shorter::<SECOND_BLOCK, 1>)];

/// A table that comes twice was walked, so it is there, plain and long enough.
const TABLE_TWICE: [Fault; 1] =
    [broken("27 twice", "a table that comes twice", [27, 22, 1], |ask| ask.image.put16_in(TABLE, NEXT_REF, 1))];

const NO_SECOND_TABLE: [Fault; 4] = [
    broken("23 second zero", "a second table 0", [23, 22, 1], zero::<TABLE, NEXT_REF>),
    broken("23 second absent", "no second table", [23, 22, 1], absent::<SECOND_TABLE>),
    broken("23 second unstored", "a second table that is not stored yet", [23, 22, 1], unstored::<SECOND_TABLE>),
    broken("23 second extended", "an extended second table", [23, 22, 1], extended::<SECOND_TABLE>),
];

const SHORT_SECOND_TABLE: [Fault; 1] =
    [broken("24 second", "a second table of 5 bytes", [24, 22, 1], shorter::<SECOND_TABLE, 5>)];

/// The first block of the second table is the third of the element.
const NO_THIRD_BLOCK: [Fault; 4] = [
    broken("25 third zero", "a third block 0", [25, 22, 2], zero::<SECOND_TABLE, BLOCK_REF>),
    broken("25 third absent", "no third block", [25, 22, 2], absent::<THIRD_BLOCK>),
    broken("25 third unstored", "a third block that is not stored yet", [25, 22, 2], unstored::<THIRD_BLOCK>),
    broken("25 third extended", "an extended third block", [25, 22, 2], extended::<THIRD_BLOCK>),
];

const SHORT_THIRD_BLOCK: [Fault; 1] =
    [broken("26 third", "a third block of 1 byte", [26, 22, 2], shorter::<THIRD_BLOCK, 1>)];

const NO_LAST_BLOCK: [Fault; 4] = [
    broken("25 last zero", "a last block 0", [25, 22, 3], zero::<SECOND_TABLE, SECOND_REF>),
    broken("25 last absent", "no last block", [25, 22, 3], absent::<LAST_BLOCK>),
    broken("25 last unstored", "a last block that is not stored yet", [25, 22, 3], unstored::<LAST_BLOCK>),
    broken("25 last extended", "an extended last block", [25, 22, 3], extended::<LAST_BLOCK>),
];

const SHORT_LAST_BLOCK: [Fault; 1] =
    [broken("26 last", "a last block of 1 byte", [26, 22, 3], shorter::<LAST_BLOCK, 1>)];

const THIRD_TABLE_TWICE: [Fault; 2] = [
    broken("27 third", "a second table that leads to itself", [27, 22, 2], third_table::<2>),
    broken("27 third", "a second table that leads back", [27, 22, 2], third_table::<1>),
];

const NO_THIRD_TABLE: [Fault; 2] = [
    broken("23 third zero", "a third table 0", [23, 22, 2], third_table::<0>),
    broken("23 third absent", "no third table", [23, 22, 2], third_table::<9>),
];

/// What is judged for the first three bytes, for two more, for two more, and for the last two; in the order of the walk. And what
/// is judged for more bytes than the four blocks have.
const FOR_BLOCK: [&[Fault]; 4] = [&NO_TABLE, &SHORT_TABLE, &NO_BLOCK, &SHORT_BLOCK];
pub const FOR_SECOND: [&[Fault]; 2] = [&NO_SECOND_BLOCK, &SHORT_SECOND_BLOCK];
pub const FOR_THIRD: [&[Fault]; 5] =
    [&TABLE_TWICE, &NO_SECOND_TABLE, &SHORT_SECOND_TABLE, &NO_THIRD_BLOCK, &SHORT_THIRD_BLOCK];
pub const FOR_LAST: [&[Fault]; 2] = [&NO_LAST_BLOCK, &SHORT_LAST_BLOCK];
pub const FOR_MORE: [&[Fault]; 2] = [&THIRD_TABLE_TWICE, &NO_THIRD_TABLE];

// ---- An element of 257 tables

/// The slots of the block of all tables but the last, and of the block of that one.
const X_BLOCK: usize = 34;
const Y_BLOCK: usize = 46;

/// The slots of some of the tables, which have the references 1 to 257.
const TABLE_1: usize = 58;
const TABLE_2: usize = 70;
const TABLE_256: usize = 3118;
const TABLE_257: usize = 3130;

const MANY_TABLES: [Fault; 1] = [broken("27 257th", "a 257th table", [27, 22, 256], all_tables)];

const MANY_TABLES_AND_TWICE: [Fault; 1] =
    [broken("27 257th", "a 257th table that comes twice", [27, 22, 256], |ask| {
        all_tables(ask);
        ask.image.put16_in(TABLE_256, NEXT_REF, 1);
    })];

/// Faults that are met before the 257th of all tables.
const BEFORE_MANY: [Fault; 12] = [
    broken("23 zero", "table 0", [23, 22, 0], |ask| put_link_ref(&mut ask.image, 0)),
    broken("23 absent", "no table", [23, 22, 0], absent::<TABLE_1>),
    broken("23 unstored", "a table that is not stored yet", [23, 22, 0], unstored::<TABLE_1>),
    broken("23 extended", "an extended table", [23, 22, 0], extended::<TABLE_1>),
    broken("24", "a table of 3 bytes", [24, 22, 0], shorter::<TABLE_1, 3>),
    broken("25 zero", "block 0", [25, 22, 0], zero::<TABLE_1, BLOCK_REF>),
    broken("25 zero", "a block 0 of the 256th table", [25, 22, 255], zero::<TABLE_256, BLOCK_REF>),
    broken("25 absent", "no block", [25, 22, 0], absent::<X_BLOCK>),
    broken("25 unstored", "a block that is not stored yet", [25, 22, 0], unstored::<X_BLOCK>),
    broken("25 extended", "an extended block", [25, 22, 0], extended::<X_BLOCK>),
    broken("26", "a block of no bytes", [26, 22, 0], shorter::<X_BLOCK, 0>),
    broken("27 twice", "a table that comes twice", [27, 22, 2], |ask| ask.image.put16_in(TABLE_2, NEXT_REF, 1)),
];

/// Faults of table 257 and of its block. It is the 256th where the first one is left out, and the 257th of all.
const OF_TABLE_257: [Fault; 10] = [
    broken("23 256th zero", "a last table 0", [23, 22, 255], zero::<TABLE_256, NEXT_REF>),
    broken("23 256th absent", "no last table", [23, 22, 255], absent::<TABLE_257>),
    broken("23 256th unstored", "a last table that is not stored yet", [23, 22, 255], unstored::<TABLE_257>),
    broken("23 256th extended", "an extended last table", [23, 22, 255], extended::<TABLE_257>),
    broken("24 256th", "a last table of 3 bytes", [24, 22, 255], shorter::<TABLE_257, 3>),
    broken("25 256th zero", "a last block 0", [25, 22, 255], zero::<TABLE_257, BLOCK_REF>),
    broken("25 256th absent", "no last block", [25, 22, 255], absent::<Y_BLOCK>),
    broken("25 256th unstored", "a last block that is not stored yet", [25, 22, 255], unstored::<Y_BLOCK>),
    broken("25 256th extended", "an extended last block", [25, 22, 255], extended::<Y_BLOCK>),
    broken("26 256th", "a last block of no bytes", [26, 22, 255], shorter::<Y_BLOCK, 0>),
];

// ---- Other elements

/// The reference of block 70,000 of the wide tables, in the second of them.
const REF_70_000: usize = BLOCK_REF + 2 * 30_000;

const FAR_BLOCK: [Fault; 2] = [
    broken("25 far zero", "a block 0 at 70,000", [25, 22, 70_000], zero::<SECOND_TABLE, REF_70_000>),
    broken("25 far absent", "no block at 70,000", [25, 22, 70_000], |ask| {
        ask.image.put16_in(SECOND_TABLE, REF_70_000, 4);
    }),
];

/// Here the slots are those of the table, of two blocks and of the element.
const BEFORE_THE_ELEMENT: [Fault; 7] = [
    fault("29", "an element that is not stored yet", [29, 58], unstored::<58>),
    broken("23 absent", "no table", [23, 58, 0], absent::<22>),
    broken("23 unstored", "a table that is not stored yet", [23, 58, 0], unstored::<22>),
    broken("24", "a table of 5 bytes", [24, 58, 0], shorter::<22, 5>),
    broken("25 second absent", "no second block", [25, 58, 1], absent::<46>),
    broken("25 second unstored", "a second block that is not stored yet", [25, 58, 1], unstored::<46>),
    broken("26 second", "a second block of 1 byte", [26, 58, 1], shorter::<46, 1>),
];

pub fn cases() -> Vec<Case> {
    let of = |layout| {
        let copies = [walks(layout), not_needed(layout), long_chains(layout), wide_tables(layout)].concat();
        [copies, behind_its_blocks(layout), sizes(layout)].concat()
    };
    [of(Layout::Full), of(Layout::Sparse)].concat()
}

/// Each fault of the walk behind those of the element, the record and the room, and behind each that is met before it.
fn walks(layout: Layout) -> Vec<Case> {
    let copied = [four_blocks(layout)];
    let walk = [&FOR_BLOCK[..], &FOR_SECOND, &FOR_THIRD, &FOR_LAST, &FOR_MORE].concat();
    let walk: Vec<Vec<Fault>> = walk.into_iter().map(|faults| faults_in(layout, faults)).collect();
    let alone =
        |stages: &[Vec<Fault>]| -> Vec<Case> { stages.iter().flat_map(|faults| over(faults, &copied)).collect() };
    let before_later = |(at, faults): (usize, &Vec<Fault>)| over(faults, &alone(&walk[at + 1..]));
    let all = alone(&walk);
    [
        over(&UNSTORED, &all),
        over(&of_record(layout).kind, &all),
        over(of_record(layout).rest, &all),
        over(&SMALL, &all),
        walk.iter().enumerate().flat_map(before_later).collect(),
        all,
    ]
    .concat()
}

/// Those of the faults that a walk in this layout can meet. In a sparse element a block 0 is a hole, and the first block is as
/// long as it is.
pub fn faults_in(layout: Layout, faults: &[Fault]) -> Vec<Fault> {
    let is_only_full = |rule: &str| rule == "26" || (rule.starts_with("25") && rule.ends_with("zero"));
    faults.iter().filter(|fault| layout == Layout::Full || !is_only_full(fault.rule)).copied().collect()
}

/// Nothing past the length is judged: the faults of tables and blocks that only further bytes need do not answer. A needed table
/// must be whole, also for one of its blocks; of a needed block only what is taken.
fn not_needed(layout: Layout) -> Vec<Case> {
    let shortened = |of, bytes: &[u8]| {
        let image = with_length(layout, bytes.len() as u32);
        let values = [bytes.len() as u64, 0];
        granted(of, copy(302, image, bytes.len()), &values, Written::bytes(bytes)).in_layout(layout)
    };
    let (nothing, block) = (shortened("no bytes", b""), shortened("one block", b"sig"));
    let (second, third) = (shortened("two blocks", b"signa"), shortened("three blocks", b"signalb"));
    [
        unmet(&nothing, &[&FOR_BLOCK[..], &FOR_SECOND, &FOR_THIRD, &FOR_LAST].concat()),
        unmet(&block, &[&FOR_SECOND[..], &FOR_THIRD, &FOR_LAST].concat()),
        unmet(&second, &[&FOR_THIRD[..], &FOR_LAST].concat()),
        unmet(&third, &FOR_LAST),
        unmet(&shortened("half of the last block", b"signalbo"), &[&SHORT_LAST_BLOCK]),
        over(&SHORT_TABLE, &[block]),
        over(&SHORT_SECOND_TABLE, &[third]),
    ]
    .concat()
}

/// A case with each of the faults, of which none is met.
fn unmet(case: &Case, stages: &[&[Fault]]) -> Vec<Case> {
    stages.iter().flat_map(|faults| faults.iter().map(|fault| fault.unmet(case))).collect()
}

/// A chain of 256 tables with a block each, which are those from 2 to 257; and with the first of all one too many.
fn long_chains(layout: Layout) -> Vec<Case> {
    let bytes = [&[b'x'; 255][..], b"y"].concat();
    let copy = copy(302, many_tables(layout), 300);
    let copied = [granted("256 tables", copy, &[256, 0], Written::bytes(&bytes)).in_layout(layout)];
    let many = over(&MANY_TABLES, &copied);
    let last = over(&faults_in(layout, &OF_TABLE_257), &copied);
    [
        over(&SMALL, &many),
        over(&SMALL, &last),
        over(&faults_in(layout, &BEFORE_MANY), &many),
        over(&MANY_TABLES, &last),
        over(&MANY_TABLES_AND_TWICE, &copied),
        many,
        last,
        copied.into(),
    ]
    .concat()
}

fn many_tables(layout: Layout) -> Image {
    let record = record(layout, [256, 1, 1, 1], 2);
    let mut elements = vec![(16686, 1, record), (PLAIN_20, 300, b"x".to_vec()), (PLAIN_20, 301, b"y".to_vec())];
    elements.extend((1..257).map(|table| (PLAIN_20, table, numbers16(&[table + 1, 300]))));
    elements.extend([(PLAIN_20, 257, numbers16(&[0, 301])), (PLAIN_20, 0, numbers16(&[257, 300]))]);
    file(&elements)
}

/// Two tables of 40,000 references to one block: an index has more than 16 bits.
fn wide_tables(layout: Layout) -> Vec<Case> {
    let table = |next| [numbers16(&[next]), numbers16(&[3; 40_000])].concat();
    let image = file(&[
        (16686, 1, record(layout, [70_001, 1, 1, 40_000], 1)),
        (PLAIN_20, 1, table(2)),
        (PLAIN_20, 2, table(0)),
        (PLAIN_20, 3, b"z".to_vec()),
        (PLAIN_20, 0, b"0".to_vec()),
    ]);
    let (copy, written) = (copy(302, image, 70_001), Written::bytes(&[b'z'; 70_001]));
    let copied = [granted("wide tables", copy, &[70_001, 0], written).in_layout(layout)];
    let far = over(&faults_in(layout, &FAR_BLOCK), &copied);
    [over(&SMALL, &far), far, copied.into()].concat()
}

/// The place is that of the element, here the last slot.
fn behind_its_blocks(layout: Layout) -> Vec<Case> {
    let image = file(&[
        (PLAIN_20, 1, numbers16(&[0, 2, 3])),
        (PLAIN_20, 2, b"sig".to_vec()),
        (PLAIN_20, 3, b"na".to_vec()),
        (16686, 1, record(layout, [5, 3, 2, 2], 1)),
    ]);
    let copied = [granted("a last slot", copy(16686, image, 5), &[5, 0], Written::bytes(b"signa")).in_layout(layout)];
    [over(&BEFORE_THE_ELEMENT, &copied), copied.into()].concat()
}

/// The size is told without a look at tables and blocks.
fn sizes(layout: Layout) -> Vec<Case> {
    let sized = |of, image, length| granted(of, size(302, image), &[length], Written::default()).in_layout(layout);
    let eleven = sized("eleven bytes", with_length(layout, 11), 11);
    let mut many = sized("257 tables", many_tables(layout), 257);
    all_tables(&mut many.steps[0].ask);
    [
        unmet(&nine_bytes(layout), &[&FOR_BLOCK[..], &FOR_SECOND, &FOR_THIRD, &FOR_LAST].concat()),
        unmet(&eleven, &FOR_MORE),
        vec![eleven, many],
    ]
    .concat()
}

/// The element of four blocks with another length.
pub fn with_length(layout: Layout, length: u32) -> Image {
    let mut image = linked(layout);
    put_element_length(&mut image, length);
    image
}

// ---- How a table or a block is spoilt

/// The chain of all 257 tables.
fn all_tables(ask: &mut Ask) {
    put_link_ref(&mut ask.image, 1);
    put_element_length(&mut ask.image, 257);
}

/// A third table is needed, and the second one leads to this one.
fn third_table<const REFERENCE: u16>(ask: &mut Ask) {
    put_element_length(&mut ask.image, 11);
    ask.image.put16_in(SECOND_TABLE, NEXT_REF, REFERENCE);
}

/// A reference in a slot's element is 0.
pub fn zero<const SLOT: usize, const PLACE: usize>(ask: &mut Ask) {
    ask.image.put16_in(SLOT, PLACE, 0);
}

pub fn absent<const SLOT: usize>(ask: &mut Ask) {
    ask.image.put_tag(SLOT, OTHER_TAG);
}

pub fn unstored<const SLOT: usize>(ask: &mut Ask) {
    ask.image.unstore(SLOT);
}

fn extended<const SLOT: usize>(ask: &mut Ask) {
    ask.image.put_tag(SLOT, EXTENDED_20);
}

pub fn shorter<const SLOT: usize, const LENGTH: u32>(ask: &mut Ask) {
    ask.image.put_length(SLOT, LENGTH);
}
