//! Files to try: random bytes, well-formed files, and files with something wrong or at a limit. Most are small.

pub mod accepted;
mod damage;
mod draft;
mod limits;
pub mod linked;
mod noise;
mod orders;
mod parts;
pub mod records;

use crate::random::Random;
use draft::Size;

/// A file to try, and of which kind it is.
pub struct Image {
    pub kind: &'static str,
    pub bytes: Vec<u8>,
}

pub fn image(random: &mut Random) -> Image {
    match random.below(1000) {
        0..=59 => Image { kind: "noise", bytes: noise::random_bytes(random) },
        60..=259 => Image { kind: "telling values", bytes: noise::telling_values(random) },
        260..=509 => Image { kind: "well-formed", bytes: well_formed(random) },
        510..=981 => Image { kind: "damaged", bytes: damage::damaged(random) },
        982..=993 => Image { kind: "any order", bytes: orders::any_order(random) },
        994..=997 => Image { kind: "many blocks", bytes: limits::many_blocks(random) },
        _ => Image { kind: "many slots", bytes: limits::many_slots(random) },
    }
}

fn well_formed(random: &mut Random) -> Vec<u8> {
    let size = match random.below(1000) {
        0 => Size::Large,
        1..=20 => Size::Medium,
        _ => Size::Small,
    };
    draft::well_formed(random, size).bytes
}
