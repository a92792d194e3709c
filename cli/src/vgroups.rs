//! The Vgroups that libhdf4 keeps of arrays and images, each with its name, its dimensions and its other parts.

use crate::fault::Fault;
use crate::input::Input;
use crate::sorted::Sorted;
use crate::tags::{HEAD, VGROUP};
use crate::words::Pair;
use hdf4::{base_tag, Group, MOST_ELEMENTS};
use std::collections::HashMap;

/// Classes of the Vgroups of arrays and of images.
pub const ARRAY: &[u8] = b"Var0.0";
pub const IMAGE: &[u8] = b"RI0.0";

/// Classes of the Vgroups of dimensions, and of a Vdata that marks the scale of one.
const DIMENSION: &[u8] = b"Dim0.0";
const UNLIMITED: &[u8] = b"UDim0.0";
const SCALE: &[u8] = b"CoordVar";

/// The Vgroup of an array or an image.
pub struct Vgroup {
    pub reference: u16,
    pub class: &'static [u8],
    pub name: Vec<u8>,
    /// Base tag and reference of each, as many as a file has elements.
    pub members: Vec<Pair>,
    /// Whether its first dimension may grow.
    pub is_unlimited: bool,
    /// Whether it is the scale of a dimension.
    pub is_scale: bool,
}

/// Those of a file that the library reads, in ascending order of their references.
pub fn of(file: &Input) -> Result<Vec<Vgroup>, Fault> {
    let sorted = Sorted::of(file, |tag, _| tag == VGROUP || tag == HEAD)?;
    let mut dimensions = HashMap::new();
    for (reference, group) in readable(&sorted) {
        if group.class == DIMENSION || group.class == UNLIMITED {
            dimensions.insert(reference, group.class == UNLIMITED);
        }
    }
    // Each head is looked at once, however often it is named.
    let mut scales = HashMap::new();
    let mut of_class = |(reference, group): (u16, Group)| {
        let class = [ARRAY, IMAGE].into_iter().find(|class| *class == group.class)?;
        let pairs = group.members.iter().take(MOST_ELEMENTS).map(|pair| (base_tag(pair.tag), pair.reference));
        let members: Vec<Pair> = pairs.collect();
        let named = |tag: u16| members.iter().filter(move |pair| pair.0 == tag).map(|pair| pair.1);
        let is_unlimited = named(VGROUP).find_map(|group| dimensions.get(&group).copied()).unwrap_or(false);
        let is_scale = named(HEAD).any(|head| *scales.entry(head).or_insert_with(|| marks_a_scale(&sorted, head)));
        Some(Vgroup { reference, class, name: group.name.to_vec(), members, is_unlimited, is_scale })
    };
    Ok(readable(&sorted).filter_map(&mut of_class).collect())
}

fn readable<'a>(sorted: &'a Sorted) -> impl Iterator<Item = (u16, Group<'a>)> {
    sorted.references(VGROUP).filter_map(|reference| Some((reference, hdf4::read_group(&sorted.image, reference).ok()?)))
}

fn marks_a_scale(sorted: &Sorted, head: u16) -> bool {
    hdf4::read_vdata(&sorted.image, head).is_ok_and(|vdata| vdata.class == SCALE)
}
