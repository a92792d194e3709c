//! Some elements of a file as an image of their own, in ascending order of their references.
//!
//! Every call of the library opens the image that it is given. Opening takes long where references descend, so what asks for
//! many elements asks this image, which opens fast in any case.

use crate::fault::Fault;
use crate::input::{self, Input};
use crate::storage::bytes_of;
use hdf4::{base_tag, Element, Error};

const FIRST_BYTES: [u8; 4] = [0x0e, 0x03, 0x13, 0x01];
const FIRST_SLOT: usize = 10;
const SLOT_BYTES: usize = 12;

pub struct Sorted<'a> {
    file: &'a Input,
    /// As they stand in the file, in this image's order.
    elements: Vec<Element>,
    pub image: Vec<u8>,
}

impl Sorted<'_> {
    /// The elements of a file that are wanted, by their base tags and references.
    pub fn of(file: &Input, is_wanted: impl Fn(u16, u16) -> bool) -> Result<Sorted<'_>, Fault> {
        let mut elements = hdf4::list(&file.bytes).map_err(|e| file.refused(e))?;
        elements.retain(|element| is_wanted(base_tag(element.tag), element.reference));
        elements.sort_by_key(|element| (element.reference, element.tag));
        let image = image_of(file, &elements)?;
        Ok(Sorted { file, elements, image })
    }

    /// The references of the elements with a base tag, ascending.
    pub fn references(&self, tag: u16) -> impl Iterator<Item = u16> + '_ {
        self.elements.iter().filter(move |element| base_tag(element.tag) == tag).map(|element| element.reference)
    }

    /// A refusal by this image, with the place that it has in the file.
    pub fn in_file(&self, refusal: Error) -> Error {
        let index = (refusal.place as usize).checked_sub(FIRST_SLOT).map(|bytes| bytes / SLOT_BYTES);
        let slot = index.and_then(|index| self.elements.get(index));
        let place = slot.and_then(|slot| hdf4::find(&self.file.bytes, slot.tag, slot.reference).ok());
        Error { place: place.map_or(refusal.place, |place| place as u64), ..refusal }
    }
}

/// One block of slots, and behind it the elements' bytes: one after the other, or the whole file where that is shorter, since
/// elements may share bytes. Those that are not stored are not here either.
fn image_of(file: &Input, elements: &[Element]) -> Result<Vec<u8>, Fault> {
    let directory = FIRST_SLOT + SLOT_BYTES * elements.len();
    let total: u64 = elements.iter().map(|element| bytes_of(&file.bytes, element).len() as u64).sum();
    let whole = total > file.bytes.len() as u64;
    let mut image = Vec::new();
    input::reserve(&file.name, &mut image, directory + file.bytes.len().min(total as usize))?;
    image.extend(FIRST_BYTES);
    image.extend((elements.len() as u16).to_be_bytes());
    image.extend([0; 4]);
    let mut next = directory;
    for element in elements {
        let offset = if !element.is_stored() {
            element.offset as usize
        } else if whole {
            directory + element.offset as usize
        } else {
            next
        };
        image.extend(element.tag.to_be_bytes());
        image.extend(element.reference.to_be_bytes());
        image.extend((offset as u32).to_be_bytes());
        image.extend(element.length.to_be_bytes());
        next += bytes_of(&file.bytes, element).len();
    }
    if whole {
        image.extend(&file.bytes);
    } else {
        elements.iter().for_each(|element| image.extend(bytes_of(&file.bytes, element)));
    }
    Ok(image)
}
