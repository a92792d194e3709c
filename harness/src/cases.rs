//! The marked cases of the written rules. In cases 1 to 11 both the library and the reader must give the numbers written
//! there.

pub mod chains;
pub mod changes;
pub mod desks;
pub mod edits;
pub mod numbers;
pub mod pieces;
pub mod records;
pub mod refusals;

use crate::compare::directory::expected_open;
use crate::reader::{self, FIRST_BYTES};
use hdf4_sys::{self as library, OpenAnswer};
use pieces::NEXT;

/// The file A of the marked cases.
const A: [u8; 37] = [
    0x0e, 0x03, 0x13, 0x01, // first bytes
    0x00, 0x02, 0x00, 0x00, 0x00, 0x00, // block: two slots, no next
    0x00, 0x64, 0x00, 0x01, 0x00, 0x00, 0x00, 0x22, 0x00, 0x00, 0x00, 0x03, // 100/1, 3 bytes at 34
    0x00, 0x01, 0x00, 0x00, 0x00, 0x00, 0x00, 0x00, 0x00, 0x00, 0x00, 0x00, // free
    0x68, 0x75, 0x62,
];

const FIRST_OFFSET: usize = 14;
const FIRST_LENGTH: usize = 18;
const SECOND_SLOT: usize = 22;

/// A case: its number, its file, and what opening answers: number, place, blocks, slots, live slots.
pub struct Case {
    pub index: u32,
    pub image: Vec<u8>,
    pub answer: [u64; 5],
}

pub fn cases() -> Vec<Case> {
    let mut empty_block = FIRST_BYTES.to_vec();
    empty_block.extend([0; 6]);
    vec![
        case(1, Vec::new(), [2, 0, 0, 0, 0]),
        case(2, FIRST_BYTES.to_vec(), [3, 4, 0, 0, 0]),
        case(3, empty_block, [0, 0, 1, 0, 0]),
        case(4, A.to_vec(), [0, 0, 1, 2, 1]),
        case(5, a_with(NEXT, &[0, 0, 0, 4]), [4, 4, 0, 0, 0]),
        case(6, a_with(NEXT, &[0, 0, 0, 36]), [3, 36, 0, 0, 0]),
        case(7, a_with(NEXT, &[0, 0, 0, 24]), [5, 24, 0, 0, 0]),
        case(8, a_with(SECOND_SLOT, &[0, 0]), [7, 22, 0, 0, 0]),
        case(9, a_with(FIRST_LENGTH, &[0, 0, 0, 4]), [8, 10, 0, 0, 0]),
        case(10, a_with(FIRST_OFFSET, &[0, 0, 0, 33]), [9, 10, 0, 0, 0]),
        case(11, a_with(SECOND_SLOT, &[0x40, 0x64, 0, 1, 0, 0, 0, 0, 0, 0, 0, 0]), [10, 22, 0, 0, 0]),
    ]
}

/// Holds one case against the library and the reader.
pub fn check(case: &Case) -> Result<(), String> {
    let [number, place, blocks, slots, live] = case.answer;
    let paper = OpenAnswer { number, place, blocks, slots, live };
    check_opening(&case.image, paper).map_err(|answers| format!("marked case {}\n{answers}", case.index))
}

/// Opening must answer what the paper says, by the library and by the reader; else all three answers.
fn check_opening(image: &[u8], paper: OpenAnswer) -> Result<(), String> {
    let library = library::open(image);
    let reader = expected_open(&reader::open(image));
    if library != paper || reader != paper {
        return Err(format!("paper   {paper:?}\nlibrary {library:?}\nreader  {reader:?}"));
    }
    Ok(())
}

fn case(index: u32, image: Vec<u8>, answer: [u64; 5]) -> Case {
    Case { index, image, answer }
}

fn a_with(place: usize, bytes: &[u8]) -> Vec<u8> {
    let mut image = A.to_vec();
    image[place..place + bytes.len()].copy_from_slice(bytes);
    image
}
