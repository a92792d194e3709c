//! The elements of a file, and what groups name together: the parts of arrays and images.
//!
//! Data and dimensions often have one reference, but not always, and dimensions with the reference of the data may be those of
//! other data. A group that names both says for certain what belongs together, so groups come first.

use crate::fault::Fault;
use crate::input::Input;
use crate::storage::{bytes_of, pair_of};
use crate::vgroups;
use crate::words::Pair;
use hdf4::{base_tag, Element, MOST_ELEMENTS};
use std::collections::HashMap;

/// Arrays or images, by the tags of their elements and the class of their Vgroups.
#[derive(PartialEq)]
pub struct Kind {
    pub name: &'static str,
    pub data: &'static [u16],
    pub dimensions: u16,
    pub groups: &'static [u16],
    pub class: &'static [u8],
}

pub static ARRAY: Kind = Kind { name: "array", data: &[702], dimensions: 701, groups: &[720, 700], class: vgroups::ARRAY };
pub static IMAGE: Kind = Kind { name: "image", data: &[302, COMPRESSED], dimensions: 300, groups: &[306], class: vgroups::IMAGE };

/// The tag of images that are compressed.
pub const COMPRESSED: u16 = 303;

const BYTES_OF_A_PAIR: usize = 4;

impl Kind {
    /// Why a group gives no numbers: it has dimensions alone, as libhdf4 leaves an array that was never written.
    pub fn without_data(&self, (tag, reference): Pair) -> String {
        format!("the {} of group {tag}/{reference} has dimensions, and no data are stored", self.name)
    }
}

pub struct Directory<'a> {
    pub file: &'a Input,
    pub elements: Vec<Element>,
    /// By base tag and reference.
    present: HashMap<Pair, Element>,
}

impl Directory<'_> {
    pub fn of(file: &Input) -> Result<Directory<'_>, Fault> {
        let elements = hdf4::list(&file.bytes).map_err(|e| file.refused(e))?;
        let present = elements.iter().map(|element| (pair_of(element), *element)).collect();
        Ok(Directory { file, elements, present })
    }

    /// An element, if it is there.
    pub fn element(&self, pair: Pair) -> Option<&Element> {
        self.present.get(&pair)
    }

    pub fn has(&self, pair: Pair) -> bool {
        self.present.contains_key(&pair)
    }

    /// Whether a pair is data of a kind, and there.
    pub fn is_data(&self, kind: &Kind, pair: Pair) -> bool {
        kind.data.contains(&pair.0) && self.has(pair)
    }

    /// The groups of a kind, those of the newer tag first. One in extended storage is not looked into.
    pub fn groups(&self, kind: &'static Kind) -> impl Iterator<Item = &Element> {
        kind.groups.iter().flat_map(|tag| self.elements.iter().filter(move |element| element.tag == *tag))
    }

    /// Base tag and reference of each member of a group, as many as a file has elements; none of one that is not stored.
    pub fn members(&self, group: &Element) -> impl Iterator<Item = Pair> + '_ {
        let pair = |pair: &[u8]| (base_tag(u16::from_be_bytes([pair[0], pair[1]])), u16::from_be_bytes([pair[2], pair[3]]));
        bytes_of(&self.file.bytes, group).chunks_exact(BYTES_OF_A_PAIR).take(MOST_ELEMENTS).map(pair)
    }

    /// The first dimensions that are named and in the file.
    pub fn first_dimensions(&self, kind: &Kind, mut members: impl Iterator<Item = Pair>) -> Option<u16> {
        members.find(|pair| pair.0 == kind.dimensions && self.has(*pair)).map(|pair| pair.1)
    }
}
