//! Codes of no type, in heads that are read and in heads that are packed. Below 16384 a code is unknown as it is; from there on it
//! is the rest once 16384 is taken off that is unknown.

use super::ask::Ask;
use super::{fault, Fault};

/// The slot of a head that is read, and where the first of its types stands in it.
pub const HEAD: usize = 22;
pub const TYPE: usize = 10;

/// The refusals of a head of two fields, all at this place.
pub const fn unknown_types(place: u64) -> [Fault; 18] {
    [
        below("type 0", place, first::<0>),
        below("type 1", place, first::<1>),
        below("type 2", place, first::<2>),
        below("type 7", place, first::<7>),
        below("type 19", place, first::<19>),
        below("type 26", place, first::<26>),
        below("type 4096 + 24", place, first::<4120>),
        below("type 8192 + 22", place, first::<8214>),
        below("type 16383", place, first::<16383>),
        below("a second type of 0", place, second::<0>),
        above("type 16384", place, first::<16384>),
        above("type 16384 + 7", place, first::<16391>),
        above("type 16384 + 26", place, first::<16410>),
        above("type 16384 + 8192 + 22", place, first::<24598>),
        above("type 32768 + 22", place, first::<32790>),
        above("type 49152 + 22", place, first::<49174>),
        above("type 65535", place, first::<65535>),
        above("a second type of 32768 + 24", place, second::<32792>),
    ]
}

const fn below(name: &'static str, place: u64, spoil: fn(&mut Ask)) -> Fault {
    fault("16", name, [16, place], spoil)
}

const fn above(name: &'static str, place: u64, spoil: fn(&mut Ask)) -> Fault {
    fault("16 low first", name, [16, place], spoil)
}

fn first<const CODE: u16>(ask: &mut Ask) {
    put_type(ask, 0, CODE);
}

fn second<const CODE: u16>(ask: &mut Ask) {
    put_type(ask, 1, CODE);
}

/// Another type of a field, in the head that is packed or else in the one that is read.
fn put_type(ask: &mut Ask, field: usize, code: u16) {
    match ask.record {
        Some(_) => ask.vdata().fields[4 * field] = code,
        None => ask.image.put16_in(HEAD, TYPE + 2 * field, code),
    }
}
