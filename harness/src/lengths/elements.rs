//! Linked elements that claim to be of the greatest length, with room for all of it. Their one block is short, or there is no
//! second table, so nothing is written.

use crate::cases::pieces::{file, numbers16, numbers32};
use crate::compare::storage::copied;
use crate::compare::{compare, Pairs};
use crate::random::Random;
use crate::reader::{self, EXTENDED};
use crate::storage::{self, LINK_TAG};
use crate::tally::{Call, Tally};
use hdf4_sys as library;

const MOST: u32 = u32::MAX;

/// The element's length, and those of its first block and of the others. Both entries of the table name the block.
const FULL: [[u32; 3]; 5] =
    [[MOST, MOST, MOST], [MOST, 5, MOST], [MOST, 1, MOST - 1], [1 << 31, 5, 1 << 31], [MOST, MOST, 1]];

/// The element's length and that of its blocks, and the entries of the table: the block, or a hole.
const SPARSE: [([u32; 2], [u16; 2]); 5] = [
    ([MOST, MOST], [2, 2]),
    ([MOST, MOST - 6], [0, 2]),
    ([1 << 31, (1 << 31) - 6], [0, 2]),
    ([MOST, MOST - 6], [2, 0]),
    ([MOST, MOST / 2], [0, 0]),
];

/// Compares all calls on each, then a copy to a room of more than 4 GB, whose ends must stay as they are.
pub fn compare_long_copies(room: &mut [u8], random: &mut Random, tally: &mut Tally) -> Result<(), String> {
    let full = FULL.map(|[length, first, other]| {
        image([numbers32(&[1, length, first, other, 2]), numbers16(&[1])].concat(), [2, 2])
    });
    let sparse = SPARSE.map(|([length, block], entries)| {
        image([numbers16(&[1]), numbers32(&[length, block, 2]), numbers16(&[1])].concat(), entries)
    });
    for image in full.iter().chain(&sparse) {
        compare(image, Pairs::All, random, tally).map_err(|difference| difference.to_string())?;
        compare_copy(image, room, tally)?;
    }
    Ok(())
}

fn compare_copy(image: &[u8], room: &mut [u8], tally: &mut Tally) -> Result<(), String> {
    let before = ends(room);
    let library = library::copy(image, 100, 1, room);
    let opening = reader::open(image);
    let reading = storage::copy(image, &opening, 100, 1, room.len());
    let expected = copied(&reading);
    let Err(refused) = reading else { return Err(format!("{image:?}: granted by the reader")) };
    if library != expected || ends(room) != before {
        return Err(format!("copy of {image:?}\nlibrary {library:?}\nreader  {expected:?}"));
    }
    tally.count(Call::Copy, expected.number);
    tally.count_index(expected.number, expected.index);
    tally.count_way(Call::Copy, storage::layout(&opening, 100, 1), refused.way);
    Ok(())
}

/// A linked element with this record, whose table has these entries; block 2 has 5 bytes.
fn image(record: Vec<u8>, [first, second]: [u16; 2]) -> Vec<u8> {
    let table = numbers16(&[0, first, second]);
    file(&[(100 + EXTENDED, 1, record), (LINK_TAG, 1, table), (LINK_TAG, 2, b"depot".to_vec())]).bytes()
}

fn ends(room: &[u8]) -> [Vec<u8>; 2] {
    [room[..64].to_vec(), room[room.len() - 64..].to_vec()]
}
