//! An independent packing of records, written from the written rules alone: what each call takes is judged and laid out.

use crate::records::{judge_rooms, refuse, Array, Breach, Cause, Dimension, NumberType, Reading};
use crate::records::{MOST_DIMENSION_INTERLACE, RECORD};
use crate::vset::{Group, Tail, Vdata, FIELD, VERSION};

/// The greatest number in 16 bits: of ranks, members and bytes of a name.
pub const MOST: usize = 65_535;

/// A record as the call that packs it takes it.
#[derive(Clone, Debug, PartialEq, Eq)]
pub enum Record {
    NumberType(NumberType),
    Dimension(Dimension),
    Array(Array),
    Group(Group),
    Vdata(Vdata),
}

/// A field of a record: a number of so many bytes, or a name.
pub enum Piece {
    Number { size: usize, value: u64 },
    Text(Vec<u8>),
}

/// The bytes of a record, to go to the front of a room.
pub fn pack(record: &Record, room: usize) -> Reading<Vec<u8>> {
    if let Err((number, cause)) = judge(record) {
        return refuse(number, 0, cause);
    }
    let bytes = bytes_of(&layout(record));
    judge_rooms(&[bytes.len()], &[room])?;
    Ok((bytes, Cause::Whole))
}

fn judge(record: &Record) -> Result<(), Breach> {
    match record {
        Record::NumberType(_) => Ok(()),
        Record::Dimension(dimension) => judge_dimension(dimension),
        Record::Array(array) => judge_array(array),
        Record::Group(group) => judge_group(group),
        Record::Vdata(vdata) => judge_vdata(vdata),
    }
}

fn judge_dimension(dimension: &Dimension) -> Result<(), Breach> {
    match dimension.interlace {
        0..=MOST_DIMENSION_INTERLACE => Ok(()),
        _ => Err((RECORD, Cause::Interlace)),
    }
}

fn judge_array(array: &Array) -> Result<(), Breach> {
    let rank = array.sizes.len();
    match rank {
        1..=MOST if array.pairs.len() == 2 * (rank + 1) => Ok(()),
        1..=MOST => Err((RECORD, Cause::PairCount)),
        _ => Err((RECORD, Cause::Rank)),
    }
}

fn judge_group(group: &Group) -> Result<(), Breach> {
    if !group.members.len().is_multiple_of(2) {
        return Err((RECORD, Cause::OddMembers));
    }
    if group.members.len() > 2 * MOST {
        return Err((RECORD, Cause::ManyMembers));
    }
    judge_names(&group.tail)?;
    match group.tail.version {
        VERSION => Ok(()),
        _ => Err((RECORD, Cause::Version)),
    }
}

fn judge_vdata(vdata: &Vdata) -> Result<(), Breach> {
    if vdata.fields.len() != FIELD * vdata.name_lengths.len() {
        return Err((RECORD, Cause::FieldEntries));
    }
    let length: usize = vdata.name_lengths.iter().map(|length| usize::from(*length)).sum();
    if vdata.names.len() != length {
        return Err((RECORD, Cause::NamesLength));
    }
    judge_names(&vdata.tail)?;
    vdata.judge()
}

/// Whether name and class have lengths of 16 bits.
fn judge_names(tail: &Tail) -> Result<(), Breach> {
    if tail.name.len() > MOST {
        return Err((RECORD, Cause::LongName));
    }
    if tail.class.len() > MOST {
        return Err((RECORD, Cause::LongClass));
    }
    Ok(())
}

/// The fields of a record in order. Those of a record that breaks a rule may not fit their places.
pub fn layout(record: &Record) -> Vec<Piece> {
    match record {
        Record::NumberType(NumberType { version, kind, width, class }) => {
            [*version, *kind, *width, *class].map(|byte| number(1, byte.into())).into()
        }
        Record::Dimension(dimension) => dimension_layout(dimension),
        Record::Array(array) => array_layout(array),
        Record::Group(group) => group_layout(group),
        Record::Vdata(vdata) => vdata_layout(vdata),
    }
}

fn dimension_layout(dimension: &Dimension) -> Vec<Piece> {
    let Dimension { x, y, type_tag, type_ref, elements, interlace, compression_tag, compression_ref } = *dimension;
    let mut pieces = vec![number32(x), number32(y)];
    pieces.extend([type_tag, type_ref, elements, interlace, compression_tag, compression_ref].map(number16));
    pieces
}

fn array_layout(array: &Array) -> Vec<Piece> {
    let mut pieces = vec![length(array.sizes.len())];
    pieces.extend(array.sizes.iter().copied().map(number32));
    pieces.extend(array.pairs.iter().copied().map(number16));
    pieces
}

fn group_layout(group: &Group) -> Vec<Piece> {
    let mut pieces = vec![length(group.members.len() / 2)];
    for column in 0..2 {
        pieces.extend(group.members.chunks_exact(2).map(|pair| number16(pair[column])));
    }
    pieces.extend(tail_layout(&group.tail));
    pieces
}

fn vdata_layout(vdata: &Vdata) -> Vec<Piece> {
    let Vdata { interlace, records, record_size, fields, name_lengths, names, tail } = vdata;
    let mut pieces = vec![number16(*interlace), number32(*records), number16(*record_size), length(name_lengths.len())];
    for column in 0..FIELD {
        pieces.extend(fields.chunks_exact(FIELD).map(|field| number16(field[column])));
    }
    let mut left = &names[..];
    for length in name_lengths {
        let (name, rest) = left.split_at(left.len().min((*length).into()));
        pieces.extend([number16(*length), Piece::Text(name.to_vec())]);
        left = rest;
    }
    pieces.extend(tail_layout(tail));
    pieces
}

fn tail_layout(tail: &Tail) -> Vec<Piece> {
    let Tail { name, class, extension_tag, extension_ref, version, more } = tail;
    let mut pieces = Vec::new();
    for text in [name, class] {
        pieces.extend([length(text.len()), Piece::Text(text.clone())]);
    }
    pieces.extend([*extension_tag, *extension_ref, *version, *more].map(number16));
    pieces
}

fn number(size: usize, value: u64) -> Piece {
    Piece::Number { size, value }
}

fn number16(value: u16) -> Piece {
    number(2, value.into())
}

fn number32(value: u32) -> Piece {
    number(4, value.into())
}

/// A count or a length in 16 bits.
fn length(value: usize) -> Piece {
    number(2, value as u64)
}

/// The fields one after the other, the high byte of a number first.
pub fn bytes_of(pieces: &[Piece]) -> Vec<u8> {
    let mut bytes = Vec::new();
    for piece in pieces {
        match piece {
            Piece::Number { size, value } => bytes.extend(&value.to_be_bytes()[8 - size..]),
            Piece::Text(text) => bytes.extend(text),
        }
    }
    bytes
}
