//! Runs the built program on files with edits: which of them can be undone, and what each did.

mod common;

use common::files::{file_of, slot, unstored, TRAILER};
use common::json::Json;
use common::{ended, file, granted, refused, text, Folder};
use std::fs;

/// Edits of three desks on a file with an element that is not stored, the oldest first: words, and the line of each.
fn edits<'a>(data: &'a str, more: &'a str) -> [(Vec<&'a str>, &'static str); 6] {
    [
        (vec!["add", "--desk", "1", "40000", "5", data], "desk 1 added tag 40000 ref 5, 6 bytes"),
        (vec!["replace", "--desk", "2", "40000", "5", more], "desk 2 replaced tag 40000 ref 5, 1 byte (before: 6 bytes)"),
        (vec!["replace", "--desk", "1", "900", "2", data], "desk 1 replaced tag 900 ref 2, 6 bytes (before: not stored)"),
        (vec!["remove", "--desk", "4294967295", "900", "2"], "desk 4294967295 removed tag 900 ref 2, 6 bytes"),
        (vec!["remove", "30", "1"], "desk 0 removed tag 30 VERSION library version ref 1, 92 bytes"),
        (vec!["add", "302", "7", "/dev/null"], "desk 0 added tag 302 RI8 raster image ref 7, 0 bytes"),
    ]
}

/// The words of an edit of a file, which stands before the tag.
fn on<'a>(file: &'a str, words: &[&'a str]) -> Vec<&'a str> {
    let tag = words.iter().position(|word| ["40000", "900", "30", "302"].contains(word)).unwrap();
    [&words[..tag], &[file], &words[tag..]].concat()
}

#[test]
fn edits_are_listed_as_they_are_made_and_undone() {
    let folder = Folder::new("history");
    let (file, data, more) = (folder.copy_of("set_aside.hdf"), folder.holding("data", b"closed"), folder.holding("more", b"?"));
    let (file, edits) = (text(&file), edits(text(&data), text(&more)));
    let mut lines = Vec::new();
    for (words, said) in &edits {
        let printed = granted(&on(file, words));
        assert_eq!(printed, format!("{file}: {} bytes\n", fs::metadata(file).unwrap().len()));
        lines.insert(0, format!("{said}\n"));
        assert_eq!(granted(&["edits", file]), lines.concat());
    }
    for (_, said) in edits.iter().rev() {
        let desk = said["desk ".len()..].split(' ').next().unwrap();
        granted(&["undo", "--desk", desk, file]);
        lines.remove(0);
        assert_eq!(granted(&["edits", file]), lines.concat());
    }
    assert_eq!(fs::read(file).unwrap(), fs::read(common::file("set_aside.hdf")).unwrap());
}

#[test]
fn edits_are_listed_as_json_and_change_no_file() {
    let folder = Folder::new("json");
    let path = folder.copy_of("set_aside.hdf");
    let path = text(&path);
    assert_eq!(granted(&["edits", "--json", path]), "{\"edits\":[]}\n");
    granted(&["replace", "--desk", "3", path, "900", "2", "/dev/null"]);
    granted(&["remove", path, "30", "1"]);
    let before = fs::read(path).unwrap();
    let json = Json::read(&granted(&["edits", "--json", path]));
    let [removed, replaced] = json["edits"].items() else { panic!("{json:?}") };
    let keys = ["desk", "what", "elements", "tag", "name", "about", "ref", "bytes", "before"];
    assert_eq!((removed.keys(), replaced.keys()), (keys.to_vec(), keys.to_vec()));
    assert_eq!(["desk", "tag", "ref", "bytes"].map(|key| removed[key].number::<u32>()), [0, 30, 1, 92]);
    assert_eq!((removed["what"].text(), removed["name"].text(), &removed["before"]), ("removed", "VERSION", &Json::Null));
    assert_eq!(["desk", "tag", "ref", "bytes"].map(|key| replaced[key].number::<u32>()), [3, 900, 2, 0]);
    assert_eq!((replaced["what"].text(), &replaced["name"], &replaced["before"]), ("replaced", &Json::Null, &Json::Null));
    assert_eq!(fs::read(path).unwrap(), before);
    assert_eq!(folder.names(), ["set_aside.hdf"]);
}

/// An element in linked blocks is as long as what it gives, not as its record.
#[test]
fn an_element_in_linked_blocks_has_its_own_length() {
    let folder = Folder::new("linked");
    let path = folder.copy_of("sds_reopened.hdf");
    let path = text(&path);
    granted(&["replace", path, "702", "4", "/dev/null"]);
    granted(&["remove", path, "702", "5"]);
    let removed = "desk 0 removed tag 702 SD array data ref 5, 465 bytes";
    let replaced = "desk 0 replaced tag 702 SD array data ref 4, 0 bytes (before: 1240 bytes)";
    assert_eq!(granted(&["edits", path]), format!("{removed}\n{replaced}\n"));
}

#[test]
fn a_file_without_edits_has_none() {
    for name in ["mixed.hdf", "empty.hdf", "sds_reopened.hdf"] {
        assert_eq!(granted(&["edits", &file(name)]), "");
    }
    assert!(refused(&["edits", &file("two_machine_types.hdf")]).contains("TWICE"));
}

/// The file that another program left below our edits, with the end of a trailer that is none.
#[test]
fn a_damaged_trailer_below_the_edits_is_told_behind_them() {
    let folder = Folder::new("damaged");
    let image = [file_of(&[(100, 1, b"hub"), (40000, 5, b"")]), vec![0; 40], b"\0\0\0\x01BAC2".to_vec()].concat();
    let place = image.len() - TRAILER;
    let path = folder.holding("damaged.hdf", &image);
    let path = text(&path);
    let told = format!("hdf4: {path}: BAD_TRAILER: the trailer of the last edit is damaged (number 21, place {place})\n");
    assert_eq!(refused(&["edits", path]), told);
    granted(&["remove", "--desk", "2", path, "100", "1"]);
    assert_eq!(ended(1, &["edits", path]), ("desk 2 removed tag 100 FID file label ref 1, 3 bytes\n".to_string(), told));
}

/// A trailer that no edit of this library leaves: over a next field, so that undoing it brings in a block of two elements.
#[test]
fn an_edit_of_several_elements_says_how_many() {
    let folder = Folder::new("several");
    let mut image = unstored(file_of(&[(100, 1, b"hub")]), slot(0));
    let next = image.len() as u32;
    image.extend(b"\0\x02\0\0\0\0\x9c\x40\0\x01\0\0\0\0\0\0\0\0\x9c\x40\0\x02\0\0\0\0\0\0\0\0");
    let length = image.len() as u32;
    let old = [&next.to_be_bytes()[..], &[0; 8]].concat();
    let trailer =
        [&6u32.to_be_bytes()[..], &4u32.to_be_bytes(), &old, &length.to_be_bytes(), &[0; 4], b"\0\0\0\x09BAC2"].concat();
    image.extend(trailer);
    let path = folder.holding("several.hdf", &image);
    let path = text(&path);
    assert_eq!(granted(&["edits", path]), "desk 9 changed 2 elements\n");
    let json = Json::read(&granted(&["edits", "--json", path]));
    let edit = &json["edits"].items()[0];
    assert_eq!((edit["what"].text(), edit["elements"].number::<u32>(), &edit["tag"]), ("changed", 2, &Json::Null));
    assert_eq!(granted(&["undo", "--desk", "9", path]), format!("{path}: {length} bytes\n"));
}
