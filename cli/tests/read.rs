//! Runs the built program on real files: the bytes of elements, to standard output and to files.

mod common;

use common::files::{sample, sample_byte, slot, unstored};
use common::{failed, file, granted, granted_bytes, misused, refused, text, Folder};
use std::fs;

/// Tag, reference, offset and length of each plain element, as the program lists them.
fn plain_elements(path: &str) -> Vec<[usize; 4]> {
    let list = granted(&["list", path]);
    let after = |line: &str, name: &str| {
        let mut words = line.split(' ').skip_while(|word| *word != name);
        words.nth(1).unwrap().parse().unwrap()
    };
    let numbers = |line: &str| ["tag", "ref", "offset", "length"].map(|name| after(line, name));
    let plain = list.lines().skip(1).filter(|line| !line.ends_with("extended"));
    plain.map(numbers).collect()
}

#[test]
fn plain_elements_are_the_bytes_of_the_file() {
    let path = file("elements.hdf");
    let image = fs::read(&path).unwrap();
    let elements = plain_elements(&path);
    assert!(elements.len() > 5);
    for [tag, reference, offset, length] in elements {
        let expected = if length == 0 || tag == 107 { &[] } else { &image[offset..offset + length] };
        let words = ["read", &path, &tag.to_string(), &reference.to_string()];
        assert_eq!(granted_bytes(&words), expected, "{tag}/{reference}");
    }
}

/// A file with the linked element 100/1: its record at 46, then the table 20/1, which names the block 20/2 twice. The element is
/// longer than the file.
fn linked_file() -> Vec<u8> {
    let mut image = b"\x0e\x03\x13\x01\x00\x03\x00\x00\x00\x00".to_vec();
    image.extend(b"\x40\x64\x00\x01\x00\x00\x00\x2e\x00\x00\x00\x16");
    image.extend(b"\x00\x14\x00\x01\x00\x00\x00\x44\x00\x00\x00\x06");
    image.extend(b"\x00\x14\x00\x02\x00\x00\x00\x4a\x00\x00\x00\xc8");
    image.extend(b"\x00\x00\x00\x01\x00\x00\x01\x90\x00\x00\x00\xc8\x00\x00\x00\xc8\x00\x00\x00\x02\x00\x01");
    image.extend(b"\x00\x00\x00\x02\x00\x02");
    image.extend(0..200);
    image
}

/// That file in a folder, its path as a word.
fn linked_in(folder: &Folder) -> String {
    text(&folder.holding("linked.hdf", &linked_file())).to_string()
}

#[test]
fn a_linked_element_is_read_whole() {
    let folder = Folder::new("linked");
    let path = linked_in(&folder);
    let expected: Vec<u8> = (0..200).chain(0..200).collect();
    assert_eq!(granted_bytes(&["read", &path, "100", "1"]), expected);
    assert_eq!(granted_bytes(&["read", &path, "0x64", "1", "-"]), expected);

    let mut broken = linked_file();
    broken[65] = 0;
    let path = folder.holding("broken.hdf", &broken);
    let message = refused(&["read", text(&path), "100", "1"]);
    let expected = "CHAIN: the record of the element's linked blocks breaks its layout (number 13, place 10)";
    assert!(message.contains(expected), "{message}");
    broken[49] = 3;
    let path = folder.holding("other.hdf", &broken);
    assert!(refused(&["read", text(&path), "100", "1"]).contains("(number 12, place 10)"));
}

/// The first samples, so many of them.
fn samples(count: usize) -> Vec<u8> {
    (0..count).map(sample_byte).collect()
}

#[test]
fn linked_elements_that_libhdf4_wrote_are_read_whole() {
    let read = |name: &str, tag: &str, reference: &str| granted_bytes(&["read", &file(name), tag, reference]);
    assert_eq!(read("linked.hdf", "1000", "1"), samples(150));
    // Elements that were plain, and grew.
    assert_eq!(read("linked.hdf", "1001", "1"), [samples(10), samples(30)].concat());
    assert_eq!(read("appended.hdf", "1100", "1"), [samples(10), samples(40)].concat());
    // Blocks that were never written are zeros.
    assert_eq!(read("linked_holes.hdf", "1000", "1"), [samples(10), vec![0; 90], samples(10)].concat());
    // Records of three numbers: seven, of which the last was written over by the first of nine more.
    let numbers = (0..18).chain(0..27).map(|index| sample(4 * index, 4) as u32);
    assert_eq!(read("vdata_appended.hdf", "1963", "2"), numbers.flat_map(u32::to_be_bytes).collect::<Vec<u8>>());
}

#[test]
fn an_element_goes_to_a_file_new_or_old() {
    let folder = Folder::new("out");
    let path = linked_in(&folder);
    let out = folder.word("out");
    for _ in 0..2 {
        assert_eq!(granted(&["read", &path, "20", "1", &out]), format!("{out}: 6 bytes\n"));
        assert_eq!(fs::read(&out).unwrap(), b"\x00\x00\x00\x02\x00\x02");
        fs::write(&out, b"something else").unwrap();
    }
    refused(&["read", &path, "20", "9", &out]);
    assert_eq!(fs::read(&out).unwrap(), b"something else");
    let absent = folder.word("absent/out");
    assert!(failed(&["read", &path, "20", "1", &absent]).contains(&absent));
    assert_eq!(folder.names(), ["linked.hdf", "out"]);
}

#[test]
fn bytes_are_shown_in_hexadecimal_digits() {
    let folder = Folder::new("hex");
    let path = linked_in(&folder);
    assert_eq!(granted(&["read", "--hex", &path, "20", "1"]), format!("00000000  {:<47}  |......|\n", "00 00 00 02 00 02"));
    let shown = granted(&["read", &path, "100", "1", "--hex"]);
    let third = "00000020  20 21 22 23 24 25 26 27 28 29 2a 2b 2c 2d 2e 2f  | !\"#$%&'()*+,-./|";
    assert_eq!(shown.lines().nth(2), Some(third));
    assert_eq!(shown.lines().count(), 25);
    let out = folder.word("out");
    granted(&["read", "--hex", &path, "100", "1", &out]);
    assert_eq!(fs::read_to_string(&out).unwrap(), shown);
    assert_eq!(granted(&["read", "--hex", &path, "100", "1", "-"]), shown);
}

#[test]
fn refusals_name_their_rule() {
    let folder = Folder::new("refused");
    let path = linked_in(&folder);
    assert!(refused(&["read", &path, "20", "9"]).contains("ABSENT"));
    assert!(misused(&["read", &path, "20", "x"]).contains("not a number from 0 to 65535"));
    assert!(misused(&["read", &path, "20"]).contains("usage:"));
    assert!(refused(&["read", &file("two_machine_types.hdf"), "20", "1"]).contains("TWICE"));
}

#[test]
fn an_element_that_is_not_stored_is_not_read() {
    let path = file("set_aside.hdf");
    let expected = "NOT_STORED: the element is named in the directory and not stored yet (number 29, place 34)";
    for words in [&["read", &path, "900", "2"][..], &["read", "--hex", &path, "17284", "2"]] {
        assert_eq!(refused(words), format!("hdf4: {path}: {expected}\n"));
    }
    assert_eq!(granted_bytes(&["read", &path, "900", "1"]), samples(5));
    // In linked blocks too, where it is the record that is not stored.
    let folder = Folder::new("unstored");
    let path = folder.holding("linked.hdf", &unstored(linked_file(), slot(0)));
    assert!(refused(&["read", text(&path), "100", "1"]).ends_with(" and not stored yet (number 29, place 10)\n"));
}
