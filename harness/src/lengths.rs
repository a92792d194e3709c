//! Images around the greatest length. One memory of zeros serves all of them. The system makes a page of it only when it is
//! first read or written, so the run stays small as long as nobody goes through the whole image.

mod edits;
mod elements;
mod records;

use crate::compare::storage::compare_huge_two;
use crate::compare::{compare_huge, Difference};
use crate::random::Random;
use crate::reader::{FIRST_BYTES, MOST_BYTES, UNSTORED};
use crate::tally::Tally;
use std::fs;

const MOST: usize = MOST_BYTES as usize;
const MEMORY: usize = (1 << 32) + 64;
const MOST_PAGE_FAULTS: u64 = 256;

/// Compares the library on images of the greatest length and above. Answers how many pages were touched, if known.
pub fn compare_lengths(random: &mut Random, tally: &mut Tally) -> Result<Option<u64>, String> {
    let mut memory = vec![0; MEMORY];
    memory[..4].copy_from_slice(&FIRST_BYTES);
    let before = page_faults();
    too_long(&memory, random, tally).map_err(|difference| difference.to_string())?;
    greatest(&mut memory, random, tally).map_err(|difference| difference.to_string())?;
    records::compare_long_data(&mut memory, random, tally).map_err(|difference| difference.to_string())?;
    elements::compare_long_copies(&mut memory, random, tally)?;
    edits::compare_long_files(&mut memory, tally)?;
    drop(memory);
    edits::compare_long_data(tally)?;
    let touched = page_faults().zip(before).map(|(after, before)| after - before);
    match touched {
        Some(pages) if pages > MOST_PAGE_FAULTS => Err(format!("{pages} pages of a long image were touched")),
        _ => Ok(touched),
    }
}

/// One byte too long, and lengths that 32 bits would cut to 0 and to 10.
fn too_long(memory: &[u8], random: &mut Random, tally: &mut Tally) -> Result<(), Difference> {
    for n in [MOST + 1, 1 << 32, (1 << 32) + 10] {
        compare_huge(&memory[..n], random, tally)?;
        compare_huge_two(&memory[..n], &memory[..10], random, tally)?;
        compare_huge_two(&memory[..10], &memory[..n], random, tally)?;
    }
    Ok(())
}

/// Exactly the greatest length: one empty block, then blocks and elements at the end and just past it.
fn greatest(memory: &mut [u8], random: &mut Random, tally: &mut Tally) -> Result<(), Difference> {
    let n = MOST as u32;
    let image = &mut memory[..MOST];
    compare_huge(image, random, tally)?;
    for next in [n - 6, n - 5, n, u32::MAX] {
        put32(image, 6, next);
        compare_huge(image, random, tally)?;
    }
    put32(image, 6, n - 6);
    image[4..6].copy_from_slice(&[0, 1]);
    image[10..14].copy_from_slice(&[0, 100, 0, 1]);
    let stored = [(n - 7, 1), (n - 7, 2), (n - 1, 2), (22, n - 28), (22, n - 27), (n, n), (n, 0)];
    let unstored = [(UNSTORED, UNSTORED), (UNSTORED, n), (n, UNSTORED), (UNSTORED - 1, UNSTORED)];
    for (offset, length) in stored.into_iter().chain(unstored) {
        put32(image, 14, offset);
        put32(image, 18, length);
        compare_huge(image, random, tally)?;
    }
    Ok(())
}

fn put32(image: &mut [u8], place: usize, number: u32) {
    image[place..place + 4].copy_from_slice(&number.to_be_bytes());
}

/// How often this process touched a page for the first time, where the system tells.
fn page_faults() -> Option<u64> {
    let status = fs::read_to_string("/proc/self/stat").ok()?;
    let (_, fields) = status.rsplit_once(") ")?;
    fields.split(' ').nth(7)?.parse().ok()
}
