//! Runs the built program on real files and a few others: Vgroups.

mod common;

use common::files::{file_of, slot, unstored};
use common::{ended, file, granted, refused, text, Folder};

#[test]
fn groups_are_listed_with_what_is_below_them() {
    let path = file("vgroups.hdf");
    let expected = "\
ref 4 class \"group\" name \"right\"
  tag 1500 ref 1
  tag 1500 ref 2
ref 3 class \"group\" name \"left\"
  tag 1962 VH Vdata head ref 5
ref 2 class \"group\" name \"top\"
  tag 1965 VG Vgroup ref 3
    tag 1962 VH Vdata head ref 5
  tag 1965 VG Vgroup ref 4
    tag 1500 ref 1
    tag 1500 ref 2
";
    assert_eq!(granted(&["groups", &path]), expected);
    assert_eq!(granted(&["groups", &path, "3"]), "ref 3 class \"group\" name \"left\"\n  tag 1962 VH Vdata head ref 5\n");
    assert_eq!(granted(&["groups", &file("elements.hdf")]), "");
}

#[test]
fn groups_of_the_sd_interface_are_listed() {
    let series = "\
ref 9 class \"Var0.0\" name \"series\"
  tag 1965 VG Vgroup ref 6
    tag 1962 VH Vdata head ref 5
  tag 1962 VH Vdata head ref 7
  tag 702 SD array data ref 4
  tag 106 NT number type ref 8
  tag 701 SDD array dimensions ref 8
  tag 720 NDG numeric data group ref 3
";
    let path = file("mixed.hdf");
    assert_eq!(granted(&["groups", &path, "9"]), series);
    let below = series.lines().skip(1).map(|line| format!("  {line}\n")).collect::<String>();
    let dimension = "ref 6 class \"Dim0.0\" name \"fakeDim0\"\n  tag 1962 VH Vdata head ref 5\n";
    let all = "ref 10 class \"CDF0.0\" name \"mixed.hdf\"\n  tag 1965 VG Vgroup ref 6\n    tag 1962 VH Vdata head ref 5\n";
    assert_eq!(granted(&["groups", &path]), format!("{dimension}{series}{all}  tag 1965 VG Vgroup ref 9\n{below}"));
}

/// Group 3 of a real file, in its sixth slot, is not stored; group 2 has it within.
#[test]
fn a_group_that_is_not_stored_is_named_and_the_others_listed() {
    let folder = Folder::new("unstored");
    let path = folder.unstored_copy_of("vgroups.hdf", slot(5));
    let path = text(&path);
    let (listed, messages) = ended(1, &["groups", path]);
    assert_eq!(listed, granted(&["groups", &file("vgroups.hdf"), "4"]));
    let expected = "NOT_STORED: the element is named in the directory and not stored yet (number 29, place 70)";
    assert_eq!(messages, [3, 2].map(|reference| format!("hdf4: {path}: Vgroup {reference}: {expected}\n")).concat());
}

#[test]
fn groups_that_are_refused_are_named_and_the_others_listed() {
    let path = file("vgroups_deep.hdf");
    let (listed, messages) = ended(1, &["groups", &path]);
    let fault = |reference: u16, place: u16| {
        format!("hdf4: {path}: Vgroup {reference}: DEEP: groups are nested more than 16 deep (number 22, place {place})\n")
    };
    assert_eq!(messages, fault(2, 771) + &fault(3, 783));
    let others = (4..=19).map(|reference| granted(&["groups", &path, &reference.to_string()]));
    assert_eq!(listed, others.collect::<String>());
    let deepest = granted(&["groups", &path, "4"]);
    assert_eq!(deepest.lines().count(), 16);
    assert!(deepest.ends_with(&format!("\n{}tag 1965 VG Vgroup ref 19\n", "  ".repeat(15))));
}

#[test]
fn refusals_name_their_rule() {
    let path = file("vgroups.hdf");
    assert!(refused(&["groups", &path, "9"]).contains("Vgroup 9: ABSENT"));
    assert!(refused(&["groups", &file("two_machine_types.hdf")]).contains("TWICE"));
    let (_, message) = ended(1, &["groups", &file("vgroup_attributes.hdf")]);
    assert!(message.contains("RECORD: a record breaks its layout"));
}

/// A file with the group 1965/1 of no members.
fn odd_file() -> Vec<u8> {
    let mut image = b"\x0e\x03\x13\x01\x00\x01\x00\x00\x00\x00".to_vec();
    image.extend(b"\x07\xad\x00\x01\x00\x00\x00\x16\x00\x00\x00\x13");
    image.extend(b"\x00\x00\x00\x05\n\"\xe9\0~\x00\x00\x00\x00\x00\x00\x00\x03\x00\x00");
    image
}

/// Forty groups on the same bytes, which are more in all than the file has, and one that is not stored.
#[test]
fn a_group_that_is_not_stored_stands_beside_groups_that_share_bytes() {
    let folder = Folder::new("shared");
    let mut image = file_of(&(1..=41).map(|reference| (1965, reference, &b""[..])).collect::<Vec<_>>());
    let group = odd_file()[22..].to_vec();
    let fields = [image.len(), group.len()].map(|number| (number as u32).to_be_bytes()).concat();
    (0..40).for_each(|index| image[slot(index) + 4..slot(index) + 12].copy_from_slice(&fields));
    let path = folder.holding("shared.hdf", &unstored([image, group].concat(), slot(40)));
    let (listed, message) = ended(1, &["groups", text(&path)]);
    assert_eq!(listed.lines().count(), 40);
    assert!(message.contains("Vgroup 41: NOT_STORED: ") && message.ends_with(&format!("place {})\n", slot(40))));
}

#[test]
fn what_cannot_be_printed_is_escaped() {
    let folder = Folder::new("odd");
    let path = folder.holding("odd.hdf", &odd_file());
    assert_eq!(granted(&["groups", text(&path)]), "ref 1 class \"\" name \"\\n\\\"\\xe9\\x00~\"\n");
}
