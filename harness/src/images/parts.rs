//! Files made of elements: each with its tag, its reference and its bytes.

use super::draft::{absurd_offset, free_slot, lay_out, Draft, Slot};
use crate::random::Random;
use crate::reader::{EXTENDED, FREE, UNSTORED};

/// An element to be.
pub struct Part {
    pub tag: u16,
    pub reference: u16,
    pub bytes: Vec<u8>,
    is_set_aside: bool,
}

/// Lays the parts out in a file, in any order, with free slots among theirs.
pub fn lay(random: &mut Random, mut parts: Vec<Part>) -> Vec<u8> {
    random.shuffle(&mut parts);
    let slots = parts.len() + random.below(4);
    let first = random.below(slots + 1);
    let counts = if random.once_in(2) { vec![slots] } else { vec![first, slots - first] };
    let mut draft = lay_out(random, &counts);
    let mut parts = parts.into_iter().peekable();
    for (index, place) in draft.slots().into_iter().enumerate() {
        let is_free = slots - index > parts.len() && random.once_in(4);
        let slot = match parts.next_if(|_| !is_free) {
            Some(part) => append(random, &mut draft, part),
            None => free_slot(random),
        };
        draft.put_slot(place, &slot);
    }
    draft.bytes
}

/// Appends the bytes of a part, but of one that is set aside none. An element of no bytes stands anywhere.
fn append(random: &mut Random, draft: &mut Draft, part: Part) -> Slot {
    let Part { tag, reference, bytes, is_set_aside } = part;
    if is_set_aside {
        return Slot { tag, reference, offset: UNSTORED, length: UNSTORED };
    }
    let offset = match bytes.len() {
        0 => absurd_offset(random, draft),
        _ => draft.bytes.len() as u32,
    };
    draft.bytes.extend(&bytes);
    Slot { tag, reference, offset, length: bytes.len() as u32 }
}

impl Part {
    pub fn new(tag: u16, reference: u16, bytes: Vec<u8>) -> Part {
        Part { tag, reference, bytes, is_set_aside: false }
    }

    /// Names the element and does not store it yet.
    pub fn set_aside(&mut self) {
        self.is_set_aside = true;
    }

    /// Gives the element the tag of extended storage.
    pub fn extend(&mut self) {
        if self.tag < EXTENDED && self.tag != FREE {
            self.tag += EXTENDED;
        }
    }

    /// Writes bytes that lie inside the part; others are left out.
    pub fn put(&mut self, place: usize, bytes: &[u8]) {
        if let Some(part) = self.bytes.get_mut(place..place + bytes.len()) {
            part.copy_from_slice(bytes);
        }
    }

    pub fn put32(&mut self, place: usize, number: u32) {
        self.put(place, &number.to_be_bytes());
    }

    pub fn get32(&self, place: usize) -> u32 {
        let part = self.bytes.get(place..place + 4);
        part.map_or(0, |part| u32::from_be_bytes([part[0], part[1], part[2], part[3]]))
    }
}
