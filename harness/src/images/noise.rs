//! Files that follow no plan: random bytes, and short directories whose every field is drawn from telling values.

use crate::random::Random;
use crate::reader::FIRST_BYTES;

const TAGS: [u16; 16] = [0, 1, 1, 2, 100, 100, 107, 302, 16384, 16385, 16386, 16484, 16491, 16686, 32868, 65535];

/// Random bytes, with or without the right first four, all values or only small ones.
pub fn random_bytes(random: &mut Random) -> Vec<u8> {
    let count = random.below(90);
    let mut bytes = match random.below(4) {
        0 => Vec::new(),
        1 => FIRST_BYTES[..random.below(4)].to_vec(),
        _ => FIRST_BYTES.to_vec(),
    };
    if random.once_in(2) {
        bytes.extend(random.bytes(count));
    } else {
        bytes.extend((0..count).map(|_| random.pick(&[0, 0, 0, 0, 1, 1, 4, 10, 16, 34])));
    }
    bytes
}

/// One to three blocks of up to three slots, one behind the other. Each next field, tag, reference, offset and length is
/// one of a few values on both sides of a rule.
pub fn telling_values(random: &mut Random) -> Vec<u8> {
    let counts: Vec<usize> = (0..random.between(1, 3)).map(|_| random.below(4)).collect();
    let mut places = Vec::new();
    let mut bytes = FIRST_BYTES.to_vec();
    for count in &counts {
        places.push(bytes.len());
        bytes.resize(bytes.len() + 6 + 12 * count + random.below(3), 0);
    }
    bytes.resize(bytes.len() + random.below(8), 0);
    let marks = marks(&places, &counts, bytes.len());
    for (index, place) in places.iter().enumerate() {
        let following = places.get(index + 1).copied().unwrap_or(0);
        let next = if random.once_in(4) { random.pick(&marks) } else { following as u32 };
        write_block(random, &mut bytes[*place..], counts[index], next, &marks);
    }
    bytes
}

/// The edges of the header, of each block and of the file, each with its neighbours, and some large numbers.
fn marks(places: &[usize], counts: &[usize], n: usize) -> Vec<u32> {
    let mut marks = vec![0, 1, 2, 3, 4, 5, 1 << 31, u32::MAX];
    let ends = places.iter().zip(counts).map(|(place, count)| place + 6 + 12 * count);
    for edge in places.iter().copied().chain(ends).chain([n, n - 6]) {
        let edge = edge as u32;
        marks.extend([edge - 1, edge, edge + 1]);
    }
    marks
}

fn write_block(random: &mut Random, bytes: &mut [u8], count: usize, next: u32, marks: &[u32]) {
    bytes[..2].copy_from_slice(&(count as u16).to_be_bytes());
    bytes[2..6].copy_from_slice(&next.to_be_bytes());
    for slot in bytes[6..6 + 12 * count].chunks_exact_mut(12) {
        write_slot(random, slot, marks);
    }
}

fn write_slot(random: &mut Random, slot: &mut [u8], marks: &[u32]) {
    let (start, end) = (random.pick(marks), random.pick(marks));
    let small = random.below(3) as u32;
    let length = random.pick(&[0, 0, small, end.wrapping_sub(start), u32::MAX]);
    slot[..2].copy_from_slice(&random.pick(&TAGS).to_be_bytes());
    slot[2..4].copy_from_slice(&(random.below(2) as u16).to_be_bytes());
    slot[4..8].copy_from_slice(&start.to_be_bytes());
    slot[8..].copy_from_slice(&length.to_be_bytes());
}
