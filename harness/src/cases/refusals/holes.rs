//! What only a sparse record has: holes, which are blocks of reference 0, were never written and read as zeros, also where
//! there is an element with that reference; and a first block that tells its own length. What a full record answers is in
//! `links`.

use super::ask::{Ask, Written};
use super::elements::{copy, four_blocks, BLOCK, SECOND_TABLE, TABLE};
use super::links::{absent, faults_in, shorter, unstored, with_length, zero, BLOCK_REF, SECOND_REF};
use super::links::{FOR_LAST, FOR_MORE, FOR_SECOND, FOR_THIRD};
use super::{broken, granted, over, Case, Fault};
use crate::storage::Layout;

/// The slot of 20/0.
const NUMBER_0: usize = 118;

/// What becomes of the element of four blocks, its bytes then, and what is altered.
type Altered = (&'static str, &'static [u8], fn(&mut Ask));

const FIRST_HOLE: Altered = ("a first hole", b"\0\0nalbox", zero::<TABLE, BLOCK_REF>);
const SECOND_HOLE: Altered = ("a second hole", b"sig\0\0lbox", zero::<TABLE, SECOND_REF>);
const NO_BYTES: Altered = ("a first block of no bytes", b"nalbox", shorter::<BLOCK, 0>);

const OTHERS: [Altered; 13] = [
    ("a third hole", b"signa\0\0ox", zero::<SECOND_TABLE, BLOCK_REF>),
    ("a last hole", b"signalb\0\0", zero::<SECOND_TABLE, SECOND_REF>),
    ("half of a first hole", b"\0", zero::<TABLE, BLOCK_REF>),
    ("half of a last hole", b"signalb\0", zero::<SECOND_TABLE, SECOND_REF>),
    ("only holes", &[0; 8], only_holes),
    ("only holes, and no 20/0", &[0; 8], |ask| {
        only_holes(ask);
        absent::<NUMBER_0>(ask);
    }),
    ("only holes, and a 20/0 that is not stored yet", &[0; 8], |ask| {
        only_holes(ask);
        unstored::<NUMBER_0>(ask);
    }),
    ("a first block of no bytes, and a hole", b"\0\0lbox", |ask| {
        shorter::<BLOCK, 0>(ask);
        zero::<TABLE, SECOND_REF>(ask);
    }),
    ("a first block of 1 byte", b"snalbox", shorter::<BLOCK, 1>),
    ("a first block like the others", b"sinalbox", shorter::<BLOCK, 2>),
    ("as many bytes as a first block", b"sig", |_| {}),
    ("more bytes than others in a first block", b"sig\0", zero::<TABLE, SECOND_REF>),
    ("fewer bytes than a first block", b"si", |_| {}),
];

/// Where the first block gives fewer bytes, those that are missing need a third table.
const FEWER: [Fault; 3] = [
    broken("23 third zero", "a first block of 2 bytes", [23, 22, 2], shorter::<BLOCK, 2>),
    broken("23 third zero", "a first block of no bytes", [23, 22, 2], shorter::<BLOCK, 0>),
    broken("23 third zero", "a first hole", [23, 22, 2], zero::<TABLE, BLOCK_REF>),
];

/// What is altered is granted. Where a later block is broken, its index counts holes, and a first block without bytes.
pub fn cases() -> Vec<Case> {
    let behind_first = [&FOR_SECOND[..], &FOR_THIRD, &FOR_LAST, &FOR_MORE].concat();
    let behind_second = [&FOR_THIRD[..], &FOR_LAST, &FOR_MORE].concat();
    [
        before(&behind_first, copied(&FIRST_HOLE)),
        before(&behind_second, copied(&SECOND_HOLE)),
        before(&behind_first, copied(&NO_BYTES)),
        OTHERS.iter().map(copied).collect(),
        over(&FEWER, &[four_blocks(Layout::Sparse)]),
    ]
    .concat()
}

/// A granted case, and the same with each of these faults behind what is altered.
fn before(stages: &[&[Fault]], case: Case) -> Vec<Case> {
    let faults = faults_in(Layout::Sparse, &stages.concat());
    let case = [case];
    [over(&faults, &case), case.into()].concat()
}

/// The copy of the altered element.
fn copied((of, bytes, alter): &Altered) -> Case {
    let mut ask = copy(302, with_length(Layout::Sparse, bytes.len() as u32), 12);
    alter(&mut ask);
    granted(of, ask, &[bytes.len() as u64, 0], Written::bytes(bytes)).in_layout(Layout::Sparse)
}

fn only_holes(ask: &mut Ask) {
    zero::<TABLE, BLOCK_REF>(ask);
    zero::<TABLE, SECOND_REF>(ask);
    zero::<SECOND_TABLE, BLOCK_REF>(ask);
    zero::<SECOND_TABLE, SECOND_REF>(ask);
}
