//! Files with a linked element: its record, in either layout, its tables and its blocks, whole or broken in one or more ways,
//! beside a few other elements.

mod faults;

use super::parts::{self, Part};
use crate::random::Random;
use crate::reader::{EXTENDED, MACHINE_TYPE};
use crate::storage::{Layout, LINKED, LINK_TAG, MOST_TABLES};
use faults::{spoil, spoil_last_table, spoil_links, Fault};

/// One linked file in so many has a long chain of tables.
const LONG_EVERY: usize = 100;

/// Where the fields of a record stand behind its kind.
struct Places {
    length: usize,
    /// Of the first block and of the others, or of these alone.
    block_lengths: &'static [usize],
    block_count: usize,
    table: usize,
}

const IN_FULL: Places = Places { length: 4, block_lengths: &[8, 12], block_count: 16, table: 20 };
const IN_SPARSE: Places = Places { length: 2, block_lengths: &[6], block_count: 10, table: 14 };

/// The parts of a linked element: the record, the tables in chain order, the blocks in the order in which they are taken. A
/// hole has a block too, which no table names; at times its reference is 0.
struct Plan {
    layout: Layout,
    record: Part,
    tables: Vec<Part>,
    blocks: Vec<Part>,
    others: Vec<Part>,
}

/// How many tables and blocks, how long they are, and which blocks are holes.
struct Shape {
    layout: Layout,
    tables: usize,
    block_count: usize,
    blocks: usize,
    holes: Vec<bool>,
    first_length: usize,
    block_length: usize,
    length: usize,
}

pub fn image(random: &mut Random) -> Vec<u8> {
    let is_long = random.once_in(LONG_EVERY);
    let shape = if is_long { long(random) } else { short(random) };
    let mut plan = plan(random, &shape);
    let (faults, spoil): (usize, Fault) = match is_long {
        true => (random.pick(&[0, 0, 0, 1, 1, 2]), random.pick(&[spoil, spoil_links, spoil_last_table])),
        false => (random.pick(&[0, 0, 1, 1, 1, 1, 2, 2, 3, 4]), random.pick(&[spoil, spoil_links])),
    };
    for _ in 0..faults {
        spoil(random, &mut plan);
    }
    let Plan { record, tables, blocks, others, .. } = plan;
    parts::lay(random, tables.into_iter().chain(blocks).chain(others).chain([record]).collect())
}

/// Up to five tables, of up to four blocks.
fn short(random: &mut Random) -> Shape {
    let block_count = random.between(1, 4);
    let tables = random.pick(&[1, 1, 2, 2, 3, 5]);
    let blocks = random.between((tables - 1) * block_count + 1, tables * block_count);
    shape(random, tables, block_count, blocks)
}

/// Around 256 tables and up to 300, most of them with one block.
fn long(random: &mut Random) -> Shape {
    let block_count = random.pick(&[1, 1, 1, 2]);
    let many = random.between(250, 300);
    let tables = random.pick(&[MOST_TABLES - 1, MOST_TABLES, MOST_TABLES, MOST_TABLES, MOST_TABLES + 1, many]);
    shape(random, tables, block_count, tables * block_count)
}

/// Lengths such that all the blocks are needed; at times fewer, or none.
fn shape(random: &mut Random, tables: usize, block_count: usize, blocks: usize) -> Shape {
    let layout = random.pick(&[Layout::Full, Layout::Sparse]);
    let holes = holes(random, layout, blocks);
    let block_length = random.between(1, 12);
    let first_length = match holes[0] {
        true => block_length,
        false => first_length(random, layout, block_length).max(usize::from(blocks == 1)),
    };
    let last = random.between(1, if blocks == 1 { first_length } else { block_length });
    let whole = if blocks == 1 { last } else { first_length + (blocks - 2) * block_length + last };
    let fewer = random.below(whole + 1);
    let length = match random.below(20) {
        0 => 0,
        1..=4 => fewer,
        _ => whole,
    };
    Shape { layout, tables, block_count, blocks, holes, first_length, block_length, length }
}

/// Of a sparse element no block is a hole, or some are, the first, or all.
fn holes(random: &mut Random, layout: Layout, blocks: usize) -> Vec<bool> {
    let which = if layout == Layout::Sparse { random.below(6) } else { 0 };
    let is_hole = |index: usize| match which {
        0 | 1 => false,
        2 | 3 => random.once_in(2),
        4 => index == 0,
        _ => true,
    };
    (0..blocks).map(is_hole).collect()
}

/// As many bytes as any block has, fewer, or more. None only where the record does not say how many.
fn first_length(random: &mut Random, layout: Layout, block_length: usize) -> usize {
    let (shorter, any) = (random.below(block_length), random.between(1, 12));
    match layout {
        Layout::Full => random.pick(&[block_length, any, any]),
        Layout::Sparse => random.pick(&[block_length, 0, shorter, any]),
    }
}

fn plan(random: &mut Random, shape: &Shape) -> Plan {
    let names = references(random, shape.tables + shape.blocks);
    let (table_names, block_names) = names.split_at(shape.tables);
    let entries = block_names.iter().zip(&shape.holes).map(|(name, hole)| if *hole { 0 } else { *name });
    let entries: Vec<u16> = entries.collect();
    let reference = random.below(4) as u16;
    let tag = random.pick(&[100, 302, 702, 1963]) + EXTENDED;
    let mut plan = Plan {
        layout: shape.layout,
        record: Part::new(tag, reference, record(shape, table_names[0])),
        tables: (0..shape.tables).map(|index| table(random, shape, table_names, &entries, index)).collect(),
        blocks: (0..shape.blocks).map(|index| block(random, shape, block_names, index)).collect(),
        others: others(random),
    };
    if let Some(hole) = shape.holes.iter().position(|hole| *hole).filter(|_| random.once_in(4)) {
        plan.blocks[hole].reference = 0;
    }
    plan
}

/// Different references, none of them 0. At times they are equal modulo 251: the library's marks of tables do not tell those apart.
fn references(random: &mut Random, count: usize) -> Vec<u16> {
    let odd = random.u16() | 1;
    let (start, step) = (random.u16(), if random.once_in(4) { 251 } else { odd });
    let all = (0..=u16::MAX).map(|index| start.wrapping_add(index.wrapping_mul(step)));
    all.filter(|reference| *reference != 0).take(count).collect()
}

fn record(shape: &Shape, table: u16) -> Vec<u8> {
    let Shape { length, first_length, block_length, block_count, .. } = *shape;
    let (kind, lengths) = match shape.layout {
        Layout::Full => (vec![0, LINKED], vec![length, first_length, block_length, block_count]),
        Layout::Sparse => (vec![LINKED], vec![length, block_length, block_count]),
    };
    let kind = kind.into_iter().flat_map(u16::to_be_bytes);
    let lengths = lengths.into_iter().flat_map(|length| (length as u32).to_be_bytes());
    kind.chain(lengths).chain(table.to_be_bytes()).collect()
}

/// The table with an index. What stands behind the last block and the last table is anything, as are bytes behind the entries.
fn table(random: &mut Random, shape: &Shape, tables: &[u16], blocks: &[u16], index: usize) -> Part {
    let behind = [0, tables[0], tables[index], random.u16()];
    let mut bytes = tables.get(index + 1).copied().unwrap_or(random.pick(&behind)).to_be_bytes().to_vec();
    for entry in index * shape.block_count..(index + 1) * shape.block_count {
        let behind = [0, 0, blocks[0], random.u16()];
        bytes.extend(blocks.get(entry).copied().unwrap_or(random.pick(&behind)).to_be_bytes());
    }
    if random.once_in(4) {
        let more = random.between(1, 5);
        bytes.extend(random.bytes(more));
    }
    Part::new(LINK_TAG, tables[index], bytes)
}

/// The block with an index: as many bytes as are taken from it, or more. The first one of a sparse element tells its length.
fn block(random: &mut Random, shape: &Shape, names: &[u16], index: usize) -> Part {
    let before = if index == 0 { 0 } else { shape.first_length + (index - 1) * shape.block_length };
    let most = if index == 0 { shape.first_length } else { shape.block_length };
    let taken = shape.length.saturating_sub(before).min(most);
    let more = random.between(0, 6);
    let size = match shape.layout {
        Layout::Sparse if index == 0 => shape.first_length,
        _ => random.pick(&[taken, taken, most, taken + more]),
    };
    Part::new(LINK_TAG, names[index], random.bytes(size))
}

/// A few elements beside the linked one, plain, empty, of another kind or not stored yet. They may clash, but seldom do.
fn others(random: &mut Random) -> Vec<Part> {
    let mut parts = Vec::new();
    for index in 0..random.below(4) {
        let tag = random.pick(&[101, 303, 703, 40000]) + index as u16;
        let extended = if tag < EXTENDED && random.once_in(3) { EXTENDED } else { 0 };
        let size = random.pick(&[0, 1, 3, 16, 22, 40]);
        parts.push(Part::new(tag + extended, random.below(3) as u16, random.bytes(size)));
    }
    if random.once_in(6) {
        let extended = if random.once_in(2) { EXTENDED } else { 0 };
        parts.push(Part::new(MACHINE_TYPE + extended, random.below(3) as u16, vec![0; 30]));
    }
    parts.iter_mut().filter(|_| random.once_in(5)).for_each(Part::set_aside);
    parts
}

impl Plan {
    fn places(&self) -> &'static Places {
        match self.layout {
            Layout::Full => &IN_FULL,
            Layout::Sparse => &IN_SPARSE,
        }
    }
}
