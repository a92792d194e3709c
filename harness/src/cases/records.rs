//! Records of real files whose numbers are known beforehand, from the program that wrote them. The library must give these
//! numbers; that the reader gives the same ones is compared on the same files.

use crate::compare::compare_records;
use crate::compare::vset::value_at;
use crate::files;
use crate::lent::Filling;
use crate::random::Random;
use crate::reader::SMALL;
use crate::records::{DEEP, NO_VALUE};
use crate::tally::Tally;
use crate::vset::{GROUP, HEAD};
use hdf4_sys::{self as library, Field};

/// The types in the order of the Vdatas of `vdata_types.hdf`, the first of them with reference 2; sizes, and kinds of values.
const TYPES: [(u16, usize, u64); 10] = [
    (4, 1, 2),
    (3, 1, 2),
    (20, 1, 1),
    (21, 1, 2),
    (22, 2, 1),
    (23, 2, 2),
    (24, 4, 1),
    (25, 4, 2),
    (5, 4, 3),
    (6, 8, 4),
];

/// Holds all cases against the library; answers how many there are.
pub fn check(random: &mut Random, tally: &mut Tally) -> Result<usize, String> {
    let cases = [number_types, dimension, array, group, listing, deep_listing, fields, types, interlaces];
    for case in cases {
        let image = case()?;
        compare_records(&image, random, tally).map_err(|difference| difference.to_string())?;
    }
    Ok(cases.len())
}

type Case = Result<Vec<u8>, String>;

fn number_types() -> Case {
    let image = files::image("dfsd.hdf")?;
    let a = library::read_number_type(&image, 2);
    same("number type", [a.number, a.place, a.version, a.code, a.width, a.number_class], [0, 0, 1, 24, 32, 1])?;
    Ok(image)
}

fn dimension() -> Case {
    let image = files::image("raster_8.hdf")?;
    let a = library::read_dimension(&image, 300, 2);
    let size = [a.number, a.place, a.x, a.y, a.type_tag, a.type_ref];
    let rest = [a.elements, a.interlace, a.compression_tag, a.compression_ref];
    same("dimension", size, [0, 0, 12, 10, 106, 2])?;
    same("dimension", rest, [1, 0, 0, 2])?;
    Ok(image)
}

fn array() -> Case {
    let image = files::image("sds_ranks.hdf")?;
    let (mut sizes, mut pairs) = ([9; 5], [9; 11]);
    let a = library::read_array(&image, 40, &mut sizes, &mut pairs);
    same("array", [a.number, a.place, a.rank], [0, 0, 4])?;
    same("sizes of an array", sizes, [3, 4, 2, 2, 9])?;
    same("pairs of an array", pairs, [106, 40, 106, 40, 106, 40, 106, 40, 106, 40, 9])?;
    Ok(image)
}

fn group() -> Case {
    let image = files::image("vgroups.hdf")?;
    let mut members = [9; 5];
    let a = library::read_group(&image, 2, &mut members);
    same("group", [a.number, a.place, a.members, a.name_offset, a.name_length], [0, 0, 2, 539, 3])?;
    same(
        "group",
        [a.class_offset, a.class_length, a.extension_tag, a.extension_ref, a.version, a.more],
        [544, 5, 0, 0, 3, 0],
    )?;
    same("members of a group", members, [GROUP, 3, GROUP, 4, 9])?;
    Ok(image)
}

fn listing() -> Case {
    let image = files::image("vgroups.hdf")?;
    let mut list = [9; 11];
    let a = library::list_group(&image, 2, &mut list);
    same("listing", [a.number, a.place, a.pairs], [0, 0, 5])?;
    same("pairs of a listing", list, [GROUP, 3, HEAD, 5, GROUP, 4, 1500, 1, 1500, 2, 9])?;
    Ok(image)
}

/// 18 groups, each within the one before. From the third on there are just enough, from the second on one too many: the
/// sixteenth from there has its slot at 783.
fn deep_listing() -> Case {
    let image = files::image("vgroups_deep.hdf")?;
    let a = library::list_group(&image, 4, &mut [0; 100]);
    same("deep listing", [a.number, a.place, a.pairs], [0, 0, 15])?;
    let mut list = [9; 100];
    let a = library::list_group(&image, 3, &mut list);
    same("too deep a listing", [a.number, a.place, a.pairs], [DEEP, 783, 0])?;
    same("list of too deep a listing", list, [9; 100])?;
    Ok(image)
}

/// Four fields of other types and orders, in a table of five entries and in one of three.
fn fields() -> Case {
    let image = files::image("vdata_fields.hdf")?;
    let field = |[code, size, offset, order]: [u16; 4], [name_offset, name_length]: [u32; 2]| Field {
        code,
        size,
        offset,
        order,
        name_offset,
        name_length,
    };
    let other = Field::filled(9);
    let known = [
        field([4, 12, 0, 12], [548, 4]),
        field([5, 12, 12, 3], [554, 5]),
        field([22, 2, 24, 1], [561, 5]),
        field([6, 16, 26, 2], [568, 3]),
        other,
    ];
    let mut table = [other; 5];
    let a = library::read_fields(&image, 2, &mut table);
    same("head of fields", [a.number, a.place, a.records, a.record_size, a.fields], [0, 0, 5, 42, 4])?;
    same("names of a head", [a.name_offset, a.name_length, a.class_offset, a.class_length], [573, 8, 583, 5])?;
    same("fields", table, known)?;
    let mut table = [other; 3];
    let a = library::read_fields(&image, 2, &mut table);
    same("head of too many fields", [a.number, a.place, a.records, a.fields], [SMALL, 0, 0, 0])?;
    same("table of too many fields", table, [other; 3])?;
    Ok(image)
}

/// The samples that the real files hold, as the program that wrote them had them in memory: low byte first.
fn sample(place: usize, size: usize) -> u64 {
    let byte = |index: usize| u64::from((7 * index + index / 32) as u8);
    (0..size).map(|index| byte(place + index) << (8 * index)).sum()
}

/// Four values of each type.
fn types() -> Case {
    let image = files::image("vdata_types.hdf")?;
    for (reference, (number_type, size, kind)) in (2..).zip(TYPES) {
        let (mut fields, mut names) = ([0; 4], [0; 2]);
        let a = library::read_vdata(&image, reference, &mut fields, &mut names);
        same("head", [a.number, a.interlace, a.records, a.record_size, a.fields], [0, 0, 4, size as u64, 1])?;
        same("field", fields, [number_type, size as u16, 0, 1])?;
        same("name of a field", text(&image, names[0].into(), names[1].into()), *b"value")?;
        same("class", text(&image, a.class_offset, a.class_length), *b"types")?;
        for record in 0..4 {
            let a = value_at(&image, reference, [record, 0, 0]);
            same("value", [a.number, a.place, a.kind, a.bits], [0, 0, kind, sample(record as usize * size, size)])?;
        }
    }
    Ok(image)
}

/// Seven records of three numbers, by record with reference 2 and by field with reference 3.
fn interlaces() -> Case {
    let image = files::image("vdata_interlaces.hdf")?;
    for (reference, interlace) in [(2, 0), (3, 1)] {
        let a = library::read_vdata(&image, reference, &mut [0; 12], &mut [0; 6]);
        same("head", [a.number, a.interlace, a.records, a.record_size, a.fields], [0, interlace, 7, 12, 3])?;
        for (record, field) in (0..7).flat_map(|record| (0..3).map(move |field| (record, field))) {
            let a = value_at(&image, reference, [record, field, 0]);
            let bits = sample(12 * record as usize + 4 * field as usize, 4);
            same("value", [a.number, a.place, a.kind, a.bits], [0, 0, 2, bits])?;
        }
        let a = value_at(&image, reference, [7, 0, 0]);
        same("value past the last record", [a.number, a.place, a.kind, a.bits], [NO_VALUE, 0, 0, 0])?;
    }
    Ok(image)
}

/// Five bytes at a place of the image, spaces where there are fewer.
fn text(image: &[u8], place: u64, length: u64) -> [u8; 5] {
    let (place, length) = (place as usize, length as usize);
    let mut text = [b' '; 5];
    text[..length.min(5)].copy_from_slice(&image[place..place + length.min(5)]);
    text
}

/// What the library says must be what is known.
pub fn same<T: PartialEq + std::fmt::Debug, const N: usize>(
    what: &str,
    library: [T; N],
    known: [T; N],
) -> Result<(), String> {
    match library == known {
        true => Ok(()),
        false => Err(format!("known {what}\nlibrary {library:?}\nknown   {known:?}")),
    }
}
