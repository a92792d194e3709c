//! Runs the built program on elements whose linked blocks are broken: the line says which table or block it is, and how.

mod common;

use common::files::{file_of, linked_record, shorts, slot, sparse_record, unstored};
use common::{granted_bytes, refused, text, Folder};
use std::fs;

/// Tag, reference and bytes of an element.
type Part = (u16, u16, Vec<u8>);

/// A change of the grid, and what is then told of it.
type Case = (fn(&mut [Part]), &'static str);

const EXTENDED: u16 = 16384;

// Where the parts of the grid stand.
const RECORD: usize = 1;
const TABLE_0: usize = 2;
const TABLE_1: usize = 3;
const BLOCK_0: usize = 4;
const BLOCK_2: usize = 6;
const BLOCK_3: usize = 7;

/// The grid 702/7, the second element: 17 bytes in the blocks 20/11 to 20/14, which the tables 20/1 and 20/2 name.
fn grid() -> Vec<Part> {
    let mut parts = vec![
        (100, 1, b"snow".to_vec()),
        (EXTENDED + 702, 7, linked_record([17, 4, 5, 2], 1)),
        (20, 1, shorts(&[2, 11, 12])),
        (20, 2, shorts(&[0, 13, 14])),
    ];
    let blocks = [&b"pass"[..], b" road", b" shut", b" up.."];
    parts.extend((11..).zip(blocks).map(|(reference, block)| (20, reference, block.to_vec())));
    parts
}

/// A file of these parts, its path as a word.
fn holding(folder: &Folder, parts: &[Part]) -> String {
    let lent: Vec<(u16, u16, &[u8])> = parts.iter().map(|(tag, reference, bytes)| (*tag, *reference, &bytes[..])).collect();
    text(&folder.holding("snow.hdf", &file_of(&lent))).to_string()
}

/// Reads a grid that is broken, and holds the whole line against what should be told.
fn compare(folder: &Folder, parts: &[Part], rule: (&str, u16), broken: &str) {
    compare_in(&holding(folder, parts), rule, broken);
}

fn compare_in(path: &str, (name, number): (&str, u16), broken: &str) {
    let expected = format!("{name}: 702/7 is in linked blocks, and its {broken} (number {number}, place 22)");
    assert_eq!(refused(&["read", path, "702", "7"]), format!("hdf4: {path}: {expected}\n"));
}

/// The same of grids that are each changed in one way.
fn compare_all(rule: (&str, u16), cases: &[Case]) {
    let folder = Folder::new(rule.0);
    for (change, broken) in cases {
        let mut parts = grid();
        change(&mut parts);
        compare(&folder, &parts, rule, broken);
    }
}

#[test]
fn a_grid_that_is_whole_is_read() {
    let folder = Folder::new("whole");
    assert_eq!(granted_bytes(&["read", &holding(&folder, &grid()), "702", "7"]), b"pass road shut up");
}

#[test]
fn a_missing_table_is_named() {
    let cases: [Case; 4] = [
        (|parts| parts[TABLE_1].1 = 3, "table 1 (reference 2) is not in the file"),
        (|parts| parts[TABLE_0].0 += EXTENDED, "table 0 (reference 1) is in extended storage, where plain storage is needed"),
        (|parts| parts[TABLE_0].2 = shorts(&[0, 11, 12]), "table 1 (reference 0) is missing: reference 0 names none"),
        (|parts| parts[RECORD].2 = linked_record([17, 4, 5, 2], 0), "table 0 (reference 0) is missing: reference 0 names none"),
    ];
    compare_all(("NO_TABLE", 23), &cases);
}

#[test]
fn a_short_table_is_named_with_its_bytes() {
    let cases: [Case; 2] = [
        (|parts| parts[TABLE_1].2.truncate(5), "table 1 (reference 2) is too short: it has 5 of the 6 bytes that are needed"),
        (|parts| parts[TABLE_0].2.clear(), "table 0 (reference 1) is too short: it has 0 of the 6 bytes that are needed"),
    ];
    compare_all(("SHORT_TABLE", 24), &cases);
}

#[test]
fn a_missing_block_is_named() {
    let cases: [Case; 3] = [
        (|parts| parts[BLOCK_2].1 = 9, "block 2 (reference 13) is not in the file"),
        (|parts| parts[BLOCK_0].0 += EXTENDED, "block 0 (reference 11) is in extended storage, where plain storage is needed"),
        (|parts| parts[TABLE_1].2 = shorts(&[0, 13, 0]), "block 3 (reference 0) is missing: reference 0 names none"),
    ];
    compare_all(("NO_BLOCK", 25), &cases);
}

#[test]
fn a_table_or_block_that_is_not_stored_is_named() {
    let folder = Folder::new("unstored");
    let compare_unstored = |part, rule, broken| {
        let path = holding(&folder, &grid());
        fs::write(&path, unstored(fs::read(&path).unwrap(), slot(part))).unwrap();
        compare_in(&path, rule, broken);
    };
    compare_unstored(TABLE_0, ("NO_TABLE", 23), "table 0 (reference 1) is not stored yet");
    compare_unstored(TABLE_1, ("NO_TABLE", 23), "table 1 (reference 2) is not stored yet");
    compare_unstored(BLOCK_0, ("NO_BLOCK", 25), "block 0 (reference 11) is not stored yet");
    compare_unstored(BLOCK_3, ("NO_BLOCK", 25), "block 3 (reference 14) is not stored yet");
}

/// The grid of a real file, in linked blocks, whose second block, 20/5 in the eighth slot, is not stored.
#[test]
fn a_real_block_that_is_not_stored_is_named() {
    let folder = Folder::new("real");
    let path = folder.unstored_copy_of("sds_unlimited.hdf", slot(7));
    let told = "NO_BLOCK: 702/4 is in linked blocks, and its block 1 (reference 5) is not stored yet (number 25, place 22)";
    for words in [&["read", text(&path), "702", "4"][..], &["grid", text(&path), "2"]] {
        assert_eq!(refused(words), format!("hdf4: {}: {told}\n", text(&path)));
    }
}

#[test]
fn a_short_block_is_named_with_its_bytes() {
    let cases: [Case; 3] = [
        (|parts| parts[BLOCK_0].2.truncate(3), "block 0 (reference 11) is too short: it has 3 of the 4 bytes that are needed"),
        (|parts| parts[BLOCK_2].2.truncate(3), "block 2 (reference 13) is too short: it has 3 of the 5 bytes that are needed"),
        // Of the last block only what the length leaves is needed.
        (|parts| parts[BLOCK_3].2.truncate(2), "block 3 (reference 14) is too short: it has 2 of the 3 bytes that are needed"),
    ];
    compare_all(("SHORT_BLOCK", 26), &cases);
}

/// The grid with a sparse record, its block 2 never written.
fn sparse_grid() -> Vec<Part> {
    let mut parts = grid();
    parts[RECORD].2 = sparse_record([17, 5, 2], 1);
    parts[TABLE_1].2 = shorts(&[0, 0, 14]);
    parts
}

#[test]
fn a_block_that_was_never_written_is_no_fault() {
    let folder = Folder::new("sparse");
    assert_eq!(granted_bytes(&["read", &holding(&folder, &sparse_grid()), "702", "7"]), b"pass road\0\0\0\0\0 up");
    let compare_changed = |rule, change: fn(&mut [Part]), broken| {
        let mut parts = sparse_grid();
        change(&mut parts);
        compare(&folder, &parts, rule, broken);
    };
    let no_table = "table 1 (reference 0) is missing: reference 0 names none";
    compare_changed(("NO_TABLE", 23), |parts| parts[TABLE_0].2 = shorts(&[0, 11, 12]), no_table);
    compare_changed(("NO_BLOCK", 25), |parts| parts[BLOCK_0].1 = 9, "block 0 (reference 11) is not in the file");
    compare_changed(("NO_BLOCK", 25), |parts| parts[BLOCK_3].1 = 9, "block 3 (reference 14) is not in the file");
    let short = "block 3 (reference 14) is too short: it has 2 of the 3 bytes that are needed";
    compare_changed(("SHORT_BLOCK", 26), |parts| parts[BLOCK_3].2.truncate(2), short);
    // Block 0 gives what it has: where that is less, more is needed of the last one.
    let shorter = "block 3 (reference 14) is too short: it has 3 of the 4 bytes that are needed";
    let shorten = |parts: &mut [Part]| [BLOCK_0, BLOCK_3].iter().for_each(|block| parts[*block].2.truncate(3));
    compare_changed(("SHORT_BLOCK", 26), shorten, shorter);
}

#[test]
fn a_table_that_comes_again_is_named_with_the_earlier_one() {
    let cases: [Case; 2] = [
        (|parts| parts[TABLE_0].2 = shorts(&[1, 11, 12]), "table 1 (reference 1) repeats table 0"),
        (
            |parts| {
                parts[RECORD].2 = linked_record([24, 4, 5, 2], 1);
                parts[TABLE_1].2 = shorts(&[2, 13, 14]);
            },
            "table 2 (reference 2) repeats table 1",
        ),
    ];
    compare_all(("TABLE_LOOP", 27), &cases);
}

/// The grid as 300 bytes, a table of one block for each; all name the block 20/900, and the table 20/256 goes on with another one.
fn long_grid(behind_256: u16) -> Vec<Part> {
    let mut parts = grid();
    parts.truncate(RECORD);
    parts.push((EXTENDED + 702, 7, linked_record([300, 1, 1, 1], 1)));
    parts.push((20, 900, b"a".to_vec()));
    let next = |reference| if reference == 256 { behind_256 } else { reference + 1 };
    parts.extend((1..=300).map(|reference| (20, reference, shorts(&[next(reference), 900]))));
    parts
}

#[test]
fn a_257th_table_is_named() {
    let folder = Folder::new("257");
    for (behind_256, broken) in [
        (257, "table 256 (reference 257) is one too many: an element has at most 256 tables"),
        (0, "table 256 (reference 0) is one too many: an element has at most 256 tables"),
        (5, "table 256 (reference 5) repeats table 4"),
    ] {
        compare(&folder, &long_grid(behind_256), ("TABLE_LOOP", 27), broken);
    }
}

#[test]
fn other_ways_to_the_grid_tell_the_same() {
    let folder = Folder::new("grid");
    let mut parts = grid();
    parts[BLOCK_2].1 = 9;
    parts.push((701, 7, shorts(&[1, 0, 17, 106, 3, 106, 3])));
    parts.push((106, 3, b"\x01\x15\x08\x01".to_vec()));
    let path = holding(&folder, &parts);
    let expected = refused(&["read", &path, "702", "7"]);
    assert!(expected.contains("its block 2 (reference 13) is not in the file"), "{expected}");
    let out = folder.word("out");
    let ways: [&[&str]; 4] = [
        &["grid", &path, "7"],
        &["read", "--hex", &path, "702", "7"],
        &["read", &path, "17086", "7"],
        &["read", &path, "702", "7", &out],
    ];
    for words in ways {
        assert_eq!(refused(words), expected, "{words:?}");
    }
    assert_eq!(folder.names(), ["snow.hdf"]);
}
