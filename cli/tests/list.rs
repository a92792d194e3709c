//! Runs the built program on real files: their elements, as lines and as JSON.

mod common;

use common::files::{file_of, slot, unstored};
use common::json::Json;
use common::{ended, file, granted, misused, program, refused, text, Folder, FILES};
use std::fs::{self, File};

/// Stored tag, reference, offset and length of each element, by the blocks of the file.
fn directory(image: &[u8]) -> Vec<[u32; 4]> {
    let short = |place: usize| u32::from(image[place]) << 8 | u32::from(image[place + 1]);
    let long = |place: usize| short(place) << 16 | short(place + 2);
    let (mut elements, mut block) = (Vec::new(), 4);
    while block != 0 {
        let slots = (0..short(block) as usize).map(|slot| block + 6 + 12 * slot);
        elements.extend(slots.map(|slot| [short(slot), short(slot + 2), long(slot + 4), long(slot + 8)]));
        block = long(block + 2) as usize;
    }
    elements.retain(|element| element[0] != 1);
    elements
}

/// The real files that open.
fn paths() -> Vec<String> {
    let names = fs::read_dir(FILES).unwrap().map(|entry| entry.unwrap().file_name().into_string().unwrap());
    let paths = names.filter(|name| name.ends_with(".hdf")).map(|name| file(&name));
    let paths: Vec<String> = paths.filter(|path| program().args(["list", path]).output().unwrap().status.success()).collect();
    assert!(paths.len() > 30);
    paths
}

#[test]
fn lines_name_the_tags_that_are_known() {
    let mixed = granted(&["list", &file("mixed.hdf")]);
    assert_eq!(mixed.lines().next(), Some("2 blocks, 32 slots, 21 elements"));
    for line in [
        "tag 30 VERSION library version ref 1 offset 202 length 92",
        "tag 302 RI8 raster image ref 2 offset 294 length 63",
        "tag 106 NT number type ref 2 offset 357 length 4",
        "tag 1963 VS Vdata values ref 7 not stored",
        "tag 1962 VH Vdata head ref 11 offset 986 length 77",
        "tag 1700 ref 2 offset 1074 length 11",
    ] {
        assert!(mixed.lines().any(|listed| listed == line), "{line}");
    }
    let elements = granted(&["list", &file("elements.hdf")]);
    assert!(elements.contains("\ntag 40000 ref 1 offset ") && elements.contains("\ntag 65535 ref 7 offset "));
    let deflate = granted(&["list", &file("sds_deflate.hdf")]);
    assert!(deflate.contains("\ntag 702 SD array data ref 3 offset 2502 length 16 extended\n"));
}

/// libhdf4's SD interface leaves a Vdata without values in every file with a data set.
#[test]
fn files_of_the_sd_interface_have_an_element_that_is_not_stored() {
    let names = fs::read_dir(FILES).unwrap().map(|entry| entry.unwrap().file_name().into_string().unwrap());
    let names: Vec<String> = names.filter(|name| name.starts_with("sds_")).collect();
    assert!(names.len() > 10);
    for name in names {
        let listed = granted(&["list", &file(&name)]);
        let unstored: Vec<&str> = listed.lines().filter(|line| line.ends_with(" not stored")).collect();
        assert!(!unstored.is_empty(), "{name}");
        assert!(unstored.iter().all(|line| line.starts_with("tag 1963 VS Vdata values ref ")), "{unstored:?}");
    }
}

#[test]
fn lines_and_json_are_the_directory() {
    for path in paths() {
        let elements = directory(&fs::read(&path).unwrap());
        let lines = granted(&["list", &path]);
        let json = Json::read(&granted(&["list", "--json", &path]));
        assert_eq!(json.keys(), ["blocks", "slots", "live", "elements"]);
        let [blocks, slots, live] = ["blocks", "slots", "live"].map(|key| json[key].number::<usize>());
        assert_eq!(lines.lines().next().unwrap(), format!("{blocks} blocks, {slots} slots, {live} elements"));
        assert_eq!((live, json["elements"].items().len(), lines.lines().count() - 1), (elements.len(), live, live), "{path}");
        for ((line, object), element) in lines.lines().skip(1).zip(json["elements"].items()).zip(elements) {
            let [stored, reference, offset, length] = element;
            let is_extended = (16384..32768).contains(&stored);
            let tag = if is_extended { stored - 16384 } else { stored };
            let is_stored = (offset, length) != (u32::MAX, u32::MAX) || tag == 107;
            assert_eq!(object.keys(), ["tag", "name", "about", "ref", "stored", "offset", "length", "extended"]);
            assert_eq!(["tag", "ref"].map(|key| object[key].number::<u32>()), [tag, reference], "{path}");
            let number = |number: u32| if is_stored { Json::Number(number.to_string()) } else { Json::Null };
            assert_eq!((&object["offset"], &object["length"]), (&number(offset), &number(length)), "{path}");
            assert_eq!((&object["stored"], &object["extended"]), (&Json::Bool(is_stored), &Json::Bool(is_extended)));
            let named = match &object["name"] {
                Json::Null => String::new(),
                name => format!(" {} {}", name.text(), object["about"].text()),
            };
            assert_eq!(named.is_empty(), object["about"] == Json::Null);
            let stored = if is_stored { format!("offset {offset} length {length}") } else { "not stored".to_string() };
            let end = if is_extended { " extended" } else { "" };
            assert_eq!(line, format!("tag {tag}{named} ref {reference} {stored}{end}"), "{path}");
        }
    }
}

/// Elements that are plain, extended and of tag 107, each with offset and length all ones: of tag 107 they mean nothing.
#[test]
fn elements_that_are_not_stored_are_listed_as_such() {
    let folder = Folder::new("unstored");
    let elements: [(u16, u16, &[u8]); 3] = [(1963, 3, b""), (16384 + 702, 4, b""), (107, 5, b"")];
    let image = (0..elements.len()).map(slot).fold(file_of(&elements), unstored);
    let path = folder.holding("unstored.hdf", &image);
    let expected = "\
1 blocks, 3 slots, 3 elements
tag 1963 VS Vdata values ref 3 not stored
tag 702 SD array data ref 4 not stored extended
tag 107 MT machine type ref 5 offset 4294967295 length 4294967295
";
    assert_eq!(granted(&["list", text(&path)]), expected);
}

#[test]
fn json_is_one_line() {
    let folder = Folder::new("json");
    let image = file_of(&[(302, 2, b"abc"), (40000, 5, b""), (40000, 6, b"")]);
    let path = folder.holding("three.hdf", &unstored(image, slot(2)));
    let expected = "{\"blocks\":1,\"slots\":3,\"live\":3,\"elements\":[\
        {\"tag\":302,\"name\":\"RI8\",\"about\":\"raster image\",\"ref\":2,\
        \"stored\":true,\"offset\":46,\"length\":3,\"extended\":false},\
        {\"tag\":40000,\"name\":null,\"about\":null,\"ref\":5,\"stored\":true,\"offset\":49,\"length\":0,\"extended\":false},\
        {\"tag\":40000,\"name\":null,\"about\":null,\"ref\":6,\
        \"stored\":false,\"offset\":null,\"length\":null,\"extended\":false}]}\n";
    assert_eq!(granted(&["list", text(&path), "--json"]), expected);
    let path = folder.holding("none.hdf", &file_of(&[]));
    assert_eq!(granted(&["list", "--json", text(&path)]), "{\"blocks\":1,\"slots\":0,\"live\":0,\"elements\":[]}\n");
}

#[test]
fn standard_input_is_listed() {
    let path = file("gr_8_bit.hdf");
    let output = program().args(["list", "--json", "-"]).stdin(File::open(&path).unwrap()).output().unwrap();
    assert_eq!(String::from_utf8(output.stdout).unwrap(), granted(&["list", "--json", &path]));
}

#[test]
fn refusals_print_no_json() {
    assert!(refused(&["list", "--json", &file("two_machine_types.hdf")]).contains("TWICE"));
    assert!(refused(&["list", "--json", &file("too_many_blocks.hdf")]).contains("DIR_BIG"));
    assert!(misused(&["list", "--json"]).contains("usage: hdf4 list"));
    assert_eq!(ended(3, &["list", "--json", "absent.hdf"]).0, "");
}
