//! The elements of a file: listed, looked up, viewed, their sizes told, and copied.

use super::recorded::{Element, Storage};
use super::{number_at, refused, same, slot_of, Counts, Outcome};
use crate::reader::{EXTENDED, MACHINE_TYPE, UNSTORED};
use hdf4_sys::{self as library, CopyAnswer, ListAnswer, SizeAnswer, NOT_STORED, STORAGE};

/// An element as it is asked for, by either form of its tag.
struct Asked<'a> {
    image: &'a [u8],
    tag: u16,
    reference: u16,
    slot: u64,
}

/// The library must list these elements and no others, in this order: libhdf4 tells of every live slot.
pub fn compare_list(image: &[u8], elements: &[Element]) -> Outcome {
    let mut table = vec![0; 4 * elements.len()];
    let answer = library::list(image, &mut table);
    same("listing", answer, ListAnswer { elements: elements.len() as u64, ..ListAnswer::default() })?;
    for (listed, element) in table.chunks_exact(4).zip(elements) {
        let tag = match element.storage {
            Storage::Linked(_) | Storage::Special(_) => element.tag + EXTENDED,
            Storage::Plain(_) | Storage::Unstored => element.tag,
        };
        same("listed element", [listed[0], listed[1]], [tag.into(), element.reference.into()])?;
        same(&format!("{listed:?} is not stored"), listed[2..] == [UNSTORED; 2], element.is_unstored())?;
        if let Storage::Special(kind) = element.storage {
            same("kind of storage", number_at(image, listed[2].into()), kind)?;
        }
    }
    Ok(())
}

/// Compares an element, by its base tag and by the extended one, where there is such a tag.
pub fn compare(image: &[u8], element: &Element, counts: &mut Counts) -> Outcome {
    let Element { tag, reference, .. } = *element;
    let extended = (tag < EXTENDED).then_some(tag | EXTENDED);
    for tag in [Some(tag), extended].into_iter().flatten() {
        let slot = slot_of(image, tag, reference)?;
        Asked { image, tag, reference, slot }.compare(element)?;
    }
    match element.storage {
        Storage::Plain(_) => counts.plain += 1,
        Storage::Linked(_) => counts.linked += 1,
        Storage::Special(_) => counts.special += 1,
        Storage::Unstored => counts.unstored += 1,
    }
    Ok(())
}

impl Asked<'_> {
    fn compare(&self, element: &Element) -> Outcome {
        match &element.storage {
            // Its reference tells the machine. By the rules the element is empty, whatever bytes it is on.
            Storage::Plain(_) if element.tag == MACHINE_TYPE => self.gives(&[]),
            Storage::Plain(bytes) => self.gives(bytes),
            Storage::Linked(bytes) => self.view_refused(STORAGE).and_then(|()| self.copy_gives(bytes)),
            Storage::Special(_) => self.refused(STORAGE),
            Storage::Unstored => self.refused(NOT_STORED),
        }
    }

    fn gives(&self, bytes: &[u8]) -> Outcome {
        let answer = library::view(self.image, self.tag, self.reference);
        same("view", [answer.number, answer.place, answer.length], [0, 0, bytes.len() as u64])?;
        let part = self.image.get(answer.offset as usize..(answer.offset + answer.length) as usize);
        same("bytes of a view", part, Some(bytes))?;
        self.copy_gives(bytes)
    }

    /// The room holds other bytes before, and one more, which stays.
    fn copy_gives(&self, bytes: &[u8]) -> Outcome {
        let length = bytes.len() as u64;
        let size = library::size(self.image, self.tag, self.reference);
        same("size", size, SizeAnswer { length, ..SizeAnswer::default() })?;
        let mut room: Vec<u8> = bytes.iter().map(|byte| !byte).chain([9]).collect();
        let answer = library::copy(self.image, self.tag, self.reference, &mut room);
        same("copy", answer, CopyAnswer { length, ..CopyAnswer::default() })?;
        same("bytes of a copy", room, [bytes, &[9]].concat())
    }

    fn view_refused(&self, number: u64) -> Outcome {
        refused("view", library::view(self.image, self.tag, self.reference), number, self.slot)
    }

    fn refused(&self, number: u64) -> Outcome {
        self.view_refused(number)?;
        refused("size", library::size(self.image, self.tag, self.reference), number, self.slot)?;
        let mut room = [9; 64];
        let answer = library::copy(self.image, self.tag, self.reference, &mut room);
        refused("copy", answer, number, self.slot)?;
        same("room of a copy", room, [9; 64])
    }
}
