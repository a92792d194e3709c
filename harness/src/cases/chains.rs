//! Chains whose blocks stand in every order: up to five blocks in all orders, 256 in three. A next field that leads back to each
//! block, a further block and an element at each end of each block, and an element across it. What opening answers follows from
//! where the blocks stand; library and reader must both give it.

use super::check_opening;
use super::pieces::{block, slot, FREE_SLOT};
use crate::random::Random;
use crate::reader::{DIR_BIG, DIR_LOOP, DIR_OVER, FIRST_BYTES, MOST_BLOCKS, ON_DIRECTORY};
use hdf4_sys::{Answer, OpenAnswer};

/// A block with no slots, which joins a chain; and the head of any block.
const SMALL_BLOCK: usize = 6;

/// A block has a live slot and a free one. Behind each there is room, zeros: for a small block, an element, and a small block.
const BLOCK_BYTES: usize = 30;
const ROOM: usize = 2 * SMALL_BLOCK + 1;

/// The place of the block at a position in the file, and the end of one at a place.
fn place(position: usize) -> usize {
    4 + position * (BLOCK_BYTES + ROOM)
}

fn end(place: usize) -> usize {
    place + BLOCK_BYTES
}

/// A chain: the places of its blocks, in its order.
struct Chain {
    places: Vec<usize>,
}

impl Chain {
    fn of(order: &[usize]) -> Chain {
        Chain { places: order.iter().map(|position| place(*position)).collect() }
    }

    /// The file, where the last block names `next`. The element of each block is the byte in the middle of the room behind it.
    fn image(&self, next: usize) -> Vec<u8> {
        let mut image = vec![0; place(self.places.len())];
        image[..4].copy_from_slice(&FIRST_BYTES);
        for (index, at) in self.places.iter().enumerate() {
            let next = *self.places.get(index + 1).unwrap_or(&next) as u32;
            let live = slot(300, index as u16 + 1, (end(*at) + SMALL_BLOCK) as u32, 1);
            image[*at..end(*at)].copy_from_slice(&[&block(2, next)[..], &live, &FREE_SLOT].concat());
        }
        image
    }

    /// The file with the element of one block elsewhere.
    fn with_element(&self, index: usize, offset: usize, length: usize) -> Vec<u8> {
        let mut image = self.image(0);
        let at = self.places[index] + SMALL_BLOCK;
        image[at..at + 12].copy_from_slice(&slot(300, index as u16 + 1, offset as u32, length as u32));
        image
    }

    /// The answer where all is well, with so many blocks more, which have no slots.
    fn opens(&self, more: usize) -> OpenAnswer {
        let blocks = self.places.len() as u64;
        OpenAnswer { number: 0, place: 0, blocks: blocks + more as u64, slots: 2 * blocks, live: blocks }
    }

    /// The slot of a block's element, where a rule about it is broken.
    fn on_directory(&self, index: usize) -> OpenAnswer {
        OpenAnswer::refused(ON_DIRECTORY, (self.places[index] + SMALL_BLOCK) as u64)
    }

    /// As it is, and with a next field that leads back to each block.
    fn check_links(&self) -> Result<usize, String> {
        check(&self.image(0), self.opens(0))?;
        for at in &self.places {
            check(&self.image(*at), OpenAnswer::refused(DIR_LOOP, *at as u64))?;
        }
        Ok(1 + self.places.len())
    }

    /// With a small block just before, on the first byte, on the last byte, and just behind each block.
    fn check_overlaps(&self) -> Result<usize, String> {
        let mut count = 0;
        for at in &self.places {
            let before = at.checked_sub(SMALL_BLOCK).filter(|before| *before >= 4);
            let cases =
                [(before, false), (before.map(|at| at + 1), true), (Some(end(*at) - 1), true), (Some(end(*at)), false)];
            for (small, meets) in cases.into_iter().filter_map(|(small, meets)| Some((small?, meets))) {
                check(&self.image(small), self.joined(small, meets))?;
                count += 1;
            }
        }
        Ok(count)
    }

    /// What a small block at a place comes to: a block too many, one on another block, or one more.
    fn joined(&self, small: usize, meets: bool) -> OpenAnswer {
        if self.places.len() == MOST_BLOCKS {
            return OpenAnswer::refused(DIR_BIG, small as u64);
        }
        if meets {
            OpenAnswer::refused(DIR_OVER, small as u64)
        } else {
            self.opens(1)
        }
    }

    /// With the element of a block just before, on the first byte, on the last byte, just behind and across each block.
    fn check_elements(&self, index: usize) -> Result<usize, String> {
        for at in &self.places {
            let before = if *at == 4 { self.on_directory(index) } else { self.opens(0) };
            check(&self.with_element(index, at - 1, 1), before)?;
            check(&self.with_element(index, end(*at), 1), self.opens(0))?;
            for (offset, length) in [(*at, 1), (end(*at) - 1, 1), (at - 1, BLOCK_BYTES + 2)] {
                check(&self.with_element(index, offset, length), self.on_directory(index))?;
            }
        }
        Ok(5 * self.places.len())
    }
}

/// Holds one file against library and reader.
fn check(image: &[u8], paper: OpenAnswer) -> Result<(), String> {
    check_opening(image, paper).map_err(|answers| format!("a chain\n{answers}\n{image:?}"))
}

/// All orders of so many numbers that start with 0.
fn orders(count: usize) -> Vec<Vec<usize>> {
    let mut orders = vec![vec![0]];
    for number in 1..count {
        let longer = |order: &Vec<usize>| {
            (1..=order.len()).map(|at| [&order[..at], &[number], &order[at..]].concat()).collect::<Vec<_>>()
        };
        orders = orders.iter().flat_map(longer).collect();
    }
    orders
}

/// 256 blocks: rising, falling from the last place down, and in no order.
fn large_orders(random: &mut Random) -> [Vec<usize>; 3] {
    let rising: Vec<usize> = (0..MOST_BLOCKS).collect();
    let falling = [0].into_iter().chain((1..MOST_BLOCKS).rev()).collect();
    let mut scrambled = rising.clone();
    random.shuffle(&mut scrambled[1..]);
    [rising, falling, scrambled]
}

/// Checks all of them; answers how many files there were.
pub fn check_all(random: &mut Random) -> Result<usize, String> {
    let mut files = 0;
    for order in (1..=5).flat_map(orders) {
        let chain = Chain::of(&order);
        files += chain.check_links()? + chain.check_overlaps()?;
        for index in 0..order.len() {
            files += chain.check_elements(index)?;
        }
    }
    for order in large_orders(random) {
        let chain = Chain::of(&order);
        files += chain.check_links()? + chain.check_overlaps()?;
        for index in [0, 1, 128, 255] {
            files += chain.check_elements(index)?;
        }
    }
    Ok(files)
}
