//! What can be wrong with a linked element. A table or block past the length is hit as well as one that is needed; then the
//! element is whole nevertheless.

use super::Plan;
use crate::images::parts::Part;
use crate::random::Random;
use crate::reader::FREE;
use crate::storage::{Layout, LINKED};

pub type Fault = fn(&mut Random, &mut Plan);

/// Where the kind stands in a record.
const KIND: usize = 0;

/// Other kinds, in a full record and in a sparse one. Some would be right in the other.
const IN_32_BITS: [u32; 8] = [0, 2, 3, 5, 0x0001_0000, 0x0001_0001, 0x0100_0000, u32::MAX];
const IN_16_BITS: [u16; 7] = [0, 0, 2, 3, 5, 0x0100, u16::MAX];

const OF_THE_RECORD: [Fault; 11] = [
    record_unstored,
    record_cut,
    record_size,
    other_kind,
    kind_of_other_size,
    zero_field,
    less_length,
    a_little_more_length,
    absurd_length,
    absurd_block_count,
    absurd_block_length,
];

const OF_THE_LINKS: [Fault; 17] = [
    table_absent,
    table_unstored,
    table_extended,
    table_short,
    table_again,
    table_zero,
    table_elsewhere,
    table_is_a_block,
    block_absent,
    block_unstored,
    block_extended,
    block_short,
    first_block_size,
    block_again,
    block_zero,
    block_elsewhere,
    block_is_a_table,
];

/// Something is wrong with the record, a table or a block.
pub fn spoil(random: &mut Random, plan: &mut Plan) {
    match random.once_in(2) {
        true => random.pick(&OF_THE_RECORD)(random, plan),
        false => spoil_links(random, plan),
    }
}

/// Something is wrong with a table or a block.
pub fn spoil_links(random: &mut Random, plan: &mut Plan) {
    random.pick(&OF_THE_LINKS)(random, plan);
}

/// Something is wrong with the last table, or with the reference that leads to it.
pub fn spoil_last_table(random: &mut Random, plan: &mut Plan) {
    let last = plan.tables.len() - 1;
    match random.below(6) {
        0 => plan.tables[last].tag = FREE,
        1 => plan.tables[last].set_aside(),
        2 => plan.tables[last].extend(),
        3 => plan.tables[last].bytes.truncate(random.below(4)),
        4 => lead_to(plan, last, 0),
        _ => lead_to(plan, last, random.u16()),
    }
}

fn record_unstored(_: &mut Random, plan: &mut Plan) {
    plan.record.set_aside();
}

fn record_cut(random: &mut Random, plan: &mut Plan) {
    plan.record.bytes.truncate(random.below(4));
}

/// From 4 bytes on: of neither layout, or of the other one.
fn record_size(random: &mut Random, plan: &mut Plan) {
    let size = random.pick(&[4, 5, 8, 14, 15, 15, 16, 17, 17, 20, 21, 21, 22, 23, 23, 24, 40]);
    plan.record.bytes.resize(size, 0);
}

fn other_kind(random: &mut Random, plan: &mut Plan) {
    match plan.layout {
        Layout::Full => plan.record.put32(KIND, random.pick(&IN_32_BITS)),
        Layout::Sparse => plan.record.put(KIND, &random.pick(&IN_16_BITS).to_be_bytes()),
    }
}

/// The right kind or another one, of 32 bits or of 16 in either layout, in a record of any length.
fn kind_of_other_size(random: &mut Random, plan: &mut Plan) {
    let (long, short) = (random.pick(&IN_32_BITS), random.pick(&IN_16_BITS));
    match random.below(4) {
        0 => plan.record.put32(KIND, LINKED.into()),
        1 => plan.record.put(KIND, &LINKED.to_be_bytes()),
        2 => plan.record.put32(KIND, long),
        _ => plan.record.put(KIND, &short.to_be_bytes()),
    }
    plan.record.bytes.resize(random.between(4, 24), 0);
}

fn zero_field(random: &mut Random, plan: &mut Plan) {
    let block_length = random.pick(plan.places().block_lengths);
    plan.record.put32(random.pick(&[block_length, block_length, plan.places().block_count]), 0);
}

/// Fewer bytes, so that the last tables and blocks are not needed; no byte at times.
fn less_length(random: &mut Random, plan: &mut Plan) {
    let length = plan.record.get32(plan.places().length);
    let fewer = random.below(length as usize + 1) as u32;
    plan.put_length(random.pick(&[fewer, fewer, fewer, length.saturating_sub(1), 0]));
}

/// A few bytes more than the blocks were made for.
fn a_little_more_length(random: &mut Random, plan: &mut Plan) {
    let length = plan.record.get32(plan.places().length).wrapping_add(random.between(1, 13) as u32);
    plan.put_length(length);
}

fn absurd_length(random: &mut Random, plan: &mut Plan) {
    plan.put_length(random.pick(&[100_000, 1 << 20, 1 << 31, u32::MAX - 1, u32::MAX]));
}

/// More entries than the tables have, also such that 32 bits would cut their size.
fn absurd_block_count(random: &mut Random, plan: &mut Plan) {
    let field = plan.places().block_count;
    let more = plan.record.get32(field).wrapping_add(1);
    let count = random.pick(&[more, more, 0x7fff_fffe, 0x7fff_ffff, 1 << 31, (1 << 31) + 1, u32::MAX]);
    plan.record.put32(field, count);
}

fn absurd_block_length(random: &mut Random, plan: &mut Plan) {
    let field = random.pick(plan.places().block_lengths);
    let more = plan.record.get32(field).wrapping_add(1);
    plan.record.put32(field, random.pick(&[more, 1 << 31, u32::MAX]));
}

fn table_absent(random: &mut Random, plan: &mut Plan) {
    any(random, &mut plan.tables).tag = FREE;
}

fn table_unstored(random: &mut Random, plan: &mut Plan) {
    any(random, &mut plan.tables).set_aside();
}

fn table_extended(random: &mut Random, plan: &mut Plan) {
    any(random, &mut plan.tables).extend();
}

/// One byte short of its entries, or far shorter.
fn table_short(random: &mut Random, plan: &mut Plan) {
    let size = 2 + 2 * plan.record.get32(plan.places().block_count) as usize;
    let fewer = random.pick(&[size.saturating_sub(1), size.saturating_sub(1), 2, 1, 0]);
    any(random, &mut plan.tables).bytes.truncate(fewer);
}

/// A table leads back to itself or to one before it.
fn table_again(random: &mut Random, plan: &mut Plan) {
    let from = any_index(random, plan.tables.len());
    let to = plan.tables[random.below(from + 1)].reference;
    plan.tables[from].put(0, &to.to_be_bytes());
}

/// A reference of 0 leads to a table; at times there is a table with that reference.
fn table_zero(random: &mut Random, plan: &mut Plan) {
    let index = put_table(random, plan, 0);
    if random.once_in(2) {
        plan.tables[index].reference = 0;
    }
}

/// A reference that is hardly there leads to a table.
fn table_elsewhere(random: &mut Random, plan: &mut Plan) {
    let reference = random.u16();
    put_table(random, plan, reference);
}

/// A block is taken for a table. It is seldom long enough.
fn table_is_a_block(random: &mut Random, plan: &mut Plan) {
    let block = any(random, &mut plan.blocks).reference;
    put_table(random, plan, block);
}

/// Another reference leads to a table. Answers which one would have come there.
fn put_table(random: &mut Random, plan: &mut Plan, reference: u16) -> usize {
    let index = any_index(random, plan.tables.len());
    lead_to(plan, index, reference);
    index
}

/// Another reference in the place of the one that leads to the table with an index.
fn lead_to(plan: &mut Plan, index: usize, reference: u16) {
    match index {
        0 => plan.record.put(plan.places().table, &reference.to_be_bytes()),
        _ => plan.tables[index - 1].put(0, &reference.to_be_bytes()),
    }
}

fn block_absent(random: &mut Random, plan: &mut Plan) {
    any(random, &mut plan.blocks).tag = FREE;
}

fn block_unstored(random: &mut Random, plan: &mut Plan) {
    any(random, &mut plan.blocks).set_aside();
}

fn block_extended(random: &mut Random, plan: &mut Plan) {
    any(random, &mut plan.blocks).extend();
}

fn block_short(random: &mut Random, plan: &mut Plan) {
    let bytes = &mut any(random, &mut plan.blocks).bytes;
    bytes.truncate(bytes.len().saturating_sub(1));
}

/// The first block has no bytes, or fewer, or more.
fn first_block_size(random: &mut Random, plan: &mut Plan) {
    let bytes = &mut plan.blocks[0].bytes;
    let size = random.pick(&[0, 0, bytes.len() / 2, bytes.len() + 1, bytes.len() + 7]);
    bytes.resize(size, 0x77);
}

/// An entry names a block that another entry names too, which is allowed.
fn block_again(random: &mut Random, plan: &mut Plan) {
    let block = any(random, &mut plan.blocks).reference;
    put_entry(random, plan, block);
}

/// An entry is 0, of a sparse element a hole; at times there is a block with that reference.
fn block_zero(random: &mut Random, plan: &mut Plan) {
    put_entry(random, plan, 0);
    if random.once_in(2) {
        any(random, &mut plan.blocks).reference = 0;
    }
}

/// An entry names a block that is hardly there.
fn block_elsewhere(random: &mut Random, plan: &mut Plan) {
    let reference = random.u16();
    put_entry(random, plan, reference);
}

/// An entry names a table, whose bytes are taken like any others.
fn block_is_a_table(random: &mut Random, plan: &mut Plan) {
    let table = any(random, &mut plan.tables).reference;
    put_entry(random, plan, table);
}

fn put_entry(random: &mut Random, plan: &mut Plan, reference: u16) {
    let table = any(random, &mut plan.tables);
    let entries = (table.bytes.len() / 2).max(2) - 1;
    table.put(2 + 2 * random.below(entries), &reference.to_be_bytes());
}

impl Plan {
    fn put_length(&mut self, length: u32) {
        self.record.put32(self.places().length, length);
    }
}

fn any<'a>(random: &mut Random, parts: &'a mut [Part]) -> &'a mut Part {
    let index = any_index(random, parts.len());
    &mut parts[index]
}

/// The first, the last, or any of so many.
fn any_index(random: &mut Random, count: usize) -> usize {
    let index = random.below(count);
    random.pick(&[0, index, index, count - 1])
}
