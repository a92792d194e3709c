//! Generated files whose elements are read: linked ones, whole and broken, and the choice between two files.

use crate::compare::storage::compare_two;
use crate::compare::{self, Difference, Pairs};
use crate::hex_dump;
use crate::images::{self, linked};
use crate::random::Random;
use crate::reader::{self, Slot, UNSTORED};
use crate::storage::is_extended;
use crate::tally::Tally;

/// Compares the file with an index, alone and beside another one; at a difference, the seed and the index say how to make it
/// again.
pub fn compare(seed: u64, index: u64, tally: &mut Tally) -> Result<(), String> {
    let mut random = start(seed, index);
    let image = linked::image(&mut random);
    let at = |difference: Difference| format!("{difference}\nseed {seed} element {index}\n{}", hex_dump(&image));
    compare::compare(&image, Pairs::Some, &mut random, tally).map_err(at)?;

    let other = other(&mut random, &image);
    let (current, fallback) = if random.once_in(2) { (&image, &other) } else { (&other, &image) };
    compare_two(current, fallback, &mut random, tally).map_err(|difference| {
        format!("{difference}\nseed {seed} element {index}\n{}\n{}", hex_dump(current), hex_dump(fallback))
    })
}

/// Compares one file again and prints it.
pub fn show(seed: u64, index: u64, tally: &mut Tally) -> Result<(), String> {
    println!("{}", hex_dump(&linked::image(&mut start(seed, index))));
    compare(seed, index, tally)?;
    print!("{tally}");
    Ok(())
}

/// Other numbers than those of the files and sequences with that index.
fn start(seed: u64, index: u64) -> Random {
    Random::new(seed.rotate_left(32), index)
}

/// The second file: one of the same kind, any file, the same, or the same with its first extended element made plain or with
/// some elements not stored yet.
fn other(random: &mut Random, image: &[u8]) -> Vec<u8> {
    match random.below(10) {
        0..=4 => linked::image(random),
        5 => image.to_vec(),
        6 => made_plain(image),
        7 => set_aside(random, image),
        _ => images::image(random).bytes,
    }
}

fn made_plain(image: &[u8]) -> Vec<u8> {
    let mut plain = image.to_vec();
    if let Some(slot) = live(image).iter().find(|slot| is_extended(slot)) {
        put(&mut plain, slot.place, &slot.base_tag().to_be_bytes());
    }
    plain
}

fn set_aside(random: &mut Random, image: &[u8]) -> Vec<u8> {
    let mut other = image.to_vec();
    for slot in live(image).iter().filter(|_| random.once_in(2)) {
        put(&mut other, slot.place + 4, &[UNSTORED.to_be_bytes(); 2].concat());
    }
    other
}

/// The live slots, none where the file does not open.
fn live(image: &[u8]) -> Vec<Slot> {
    reader::open(image).map_or(Vec::new(), |directory| directory.live().cloned().collect())
}

fn put(image: &mut [u8], place: u64, bytes: &[u8]) {
    image[place as usize..][..bytes.len()].copy_from_slice(bytes);
}
