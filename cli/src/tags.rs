//! Names of tags, as the HDF specification and its library have them.

use crate::fault::Fault;
use crate::json::Json;

pub const VGROUP: u16 = 1965;
/// The head of a Vdata, and its values.
pub const HEAD: u16 = 1962;
pub const VALUES: u16 = 1963;
/// The tag whose elements are empty, whatever their offset and length say.
pub const MACHINE_TYPE: u16 = 107;

/// Each known tag, its short name, and a few words about it.
const TAGS: [(u16, &str, &str); 64] = [
    (1, "NULL", "no data"),
    (11, "RLE", "run-length encoding"),
    (12, "IMC", "IMCOMP compression"),
    (13, "JPEG", "24-bit JPEG compression"),
    (14, "GREYJPEG", "8-bit JPEG compression"),
    (15, "JPEG5", "24-bit JPEG compression"),
    (16, "GREYJPEG5", "8-bit JPEG compression"),
    (20, "LINKED", "linked block"),
    (30, "VERSION", "library version"),
    (40, "COMPRESSED", "compressed data"),
    (50, "VLINKED", "table of linked blocks"),
    (51, "VLINKED_DATA", "linked block"),
    (60, "CHUNKED", "head of chunked data"),
    (61, "CHUNK", "chunk of data"),
    (100, "FID", "file label"),
    (101, "FD", "file description"),
    (102, "TID", "tag label"),
    (103, "TD", "tag description"),
    (104, "DIL", "element label"),
    (105, "DIA", "element description"),
    (106, "NT", "number type"),
    (107, "MT", "machine type"),
    (108, "FREE", "free space"),
    (200, "ID8", "8-bit image dimensions"),
    (201, "IP8", "8-bit image palette"),
    (202, "RI8", "8-bit raster image"),
    (203, "CI8", "8-bit run-length image"),
    (204, "II8", "8-bit IMCOMP image"),
    (300, "ID", "image dimensions"),
    (301, "LUT", "palette"),
    (302, "RI8", "raster image"),
    (303, "CI", "compressed image"),
    (304, "NRI", "new raster image"),
    (306, "RIG", "raster image group"),
    (307, "LD", "palette dimensions"),
    (308, "MD", "matte dimensions"),
    (309, "MA", "matte data"),
    (310, "CCN", "colour correction"),
    (311, "CFM", "colour format"),
    (312, "AR", "aspect ratio"),
    (400, "DRAW", "composite image"),
    (401, "RUN", "program or script"),
    (500, "XYP", "position"),
    (501, "MTO", "machine type override"),
    (602, "T14", "Tektronix 4014 drawing"),
    (603, "T105", "Tektronix 4105 drawing"),
    (700, "SDG", "scientific data group"),
    (701, "SDD", "array dimensions"),
    (702, "SD", "array data"),
    (703, "SDS", "array scales"),
    (704, "SDL", "array labels"),
    (705, "SDU", "array units"),
    (706, "SDF", "array formats"),
    (707, "SDM", "array range"),
    (708, "SDC", "array coordinates"),
    (709, "SDT", "array transposed"),
    (710, "SDLNK", "array link"),
    (720, "NDG", "numeric data group"),
    (731, "CAL", "calibration"),
    (732, "FV", "fill value"),
    (781, "SDRAG", "row lengths of a ragged array"),
    (1962, "VH", "Vdata head"),
    (1963, "VS", "Vdata values"),
    (1965, "VG", "Vgroup"),
];

/// The short name of a base tag, and a few words about it.
pub fn name(tag: u16) -> Option<(&'static str, &'static str)> {
    TAGS.iter().find(|known| known.0 == tag).map(|&(_, name, about)| (name, about))
}

/// A base tag with its names, `302 RI8 raster image`; the number alone where it has none.
pub fn named(tag: u16) -> String {
    match name(tag) {
        Some((name, about)) => format!("{tag} {name} {about}"),
        None => tag.to_string(),
    }
}

/// The entries name and about of a base tag, null where it has none.
pub fn json(tag: Option<u16>, json: &mut Json) -> Result<(), Fault> {
    let Some((name, about)) = tag.and_then(name) else {
        json.entry("name", "null")?;
        return json.entry("about", "null");
    };
    json.text_entry("name", name.as_bytes())?;
    json.text_entry("about", about.as_bytes())
}

/// The base tags with a short name, in letters of either case. Raster images have one name under an older tag and a newer one:
/// the newer one comes first.
pub fn with_name(name: &str) -> Vec<u16> {
    TAGS.iter().rev().filter(|known| known.1.eq_ignore_ascii_case(name)).map(|known| known.0).collect()
}

#[cfg(test)]
mod tests {
    use super::*;

    #[test]
    fn tags_are_named() {
        assert_eq!(named(302), "302 RI8 raster image");
        assert_eq!(named(1965), "1965 VG Vgroup");
        assert_eq!(named(40000), "40000");
    }

    #[test]
    fn tags_ascend() {
        assert!(TAGS.is_sorted_by_key(|known| known.0));
    }

    #[test]
    fn one_name_alone_is_that_of_two_tags() {
        for (tag, name, _) in TAGS {
            let expected = if name == "RI8" { vec![302, 202] } else { vec![tag] };
            assert_eq!(with_name(name), expected);
            assert_eq!(with_name(&name.to_lowercase()), expected);
        }
        assert!(with_name("").is_empty() && with_name("snow").is_empty());
    }
}
