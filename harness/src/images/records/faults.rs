//! What can be wrong with a record in a file: any of its fields, its length, and the elements it is made of.

use crate::images::parts::Part;
use crate::packing::Piece;
use crate::random::Random;
use crate::reader::FREE;

/// How far a number is off. 8,192 sizes of an array or fields of a Vdata make 65,536 bytes, as do 16,384 members of a group. A
/// type that is 16,384 off is of the other byte order, or unknown.
const STEPS: [i64; 9] = [1, 1, 1, -1, -1, -1, 256, 8192, 16384];

/// Changes a field of a record, most of them counts, lengths and versions in 16 bits, or leaves one out.
pub fn spoil_pieces(random: &mut Random, pieces: &mut Vec<Piece>) {
    let index = random.below(pieces.len().max(1));
    if random.once_in(12) && index < pieces.len() {
        pieces.remove(index);
        return;
    }
    let any = random.next();
    if let Some(Piece::Number { value, .. }) = pieces.get_mut(index) {
        let off = value.wrapping_add_signed(random.pick(&STEPS));
        *value = random.pick(&[off, off, off, off, 0, u64::MAX, any]);
    }
}

/// A record cut short or made longer, or one of the elements missing, not stored yet or extended.
pub fn spoil_parts(random: &mut Random, parts: &mut [Part]) {
    let part = &mut parts[random.below(parts.len())];
    let length = part.bytes.len();
    match random.below(10) {
        0 | 1 => part.bytes.truncate(length.saturating_sub(1)),
        2 => part.bytes.truncate(random.below(length + 1)),
        3 => part.bytes.clear(),
        4 => part.bytes.push(0),
        5 => part.bytes.extend([0, 3, 0, 0]),
        6 => part.tag = FREE,
        7 => part.set_aside(),
        8 => {
            part.set_aside();
            part.extend();
        }
        _ => part.extend(),
    }
}
