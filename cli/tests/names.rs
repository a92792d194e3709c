//! Runs the built program with tags by their names.

mod common;

use common::{ended, file, granted, granted_bytes, misused, refused, text, Folder};
use std::fs;

#[test]
fn a_tag_may_be_given_by_its_name() {
    let folder = Folder::new("names");
    let (path, data) = (folder.copy_of("mixed.hdf"), folder.holding("data", b"closed"));
    let (path, data) = (text(&path), text(&data));
    let bytes = granted_bytes(&["read", path, "302", "2"]);
    for name in ["RI8", "ri8"] {
        assert_eq!(granted_bytes(&["read", path, name, "2"]), bytes);
    }
    assert_eq!(granted_bytes(&["read", path, "VH", "11"]), granted_bytes(&["read", path, "1962", "11"]));
    granted(&["add", path, "FD", "1", "/dev/null"]);
    granted(&["replace", path, "fd", "1", data]);
    granted(&["remove", path, "FD", "1"]);
    granted(&["add", path, "RI8", "9", "/dev/null"]);
    let edits = "\
desk 0 added tag 302 RI8 raster image ref 9, 0 bytes
desk 0 removed tag 101 FD file description ref 1, 6 bytes
desk 0 replaced tag 101 FD file description ref 1, 6 bytes (before: 0 bytes)
desk 0 added tag 101 FD file description ref 1, 0 bytes
";
    assert_eq!(granted(&["edits", path]), edits);
    assert!(refused(&["add", path, "MT", "1", "/dev/null"]).contains("BAD_TAG: a tag is not allowed (number 7, place 0)"));
    assert!(refused(&["read", path, "NDG", "99"]).contains("ABSENT"));
    assert_eq!(misused(&["read", path, "RI9", "2"]), "hdf4: RI9: not a number from 0 to 65535\n");
    assert!(misused(&["read", path, "RI8", "RI8"]).contains("RI8: not a number from 0 to 65535"));
}

/// Where the two tags of one name have different bytes, the newer one is taken, and that is said.
#[test]
fn a_name_of_two_tags_is_told() {
    let folder = Folder::new("two");
    let (path, data) = (folder.copy_of("raster_8.hdf"), folder.holding("data", &[0x2a; 120]));
    let (path, data) = (text(&path), text(&data));
    assert_eq!(ended(0, &["read", path, "RI8", "2", "/dev/null"]).1, "");
    assert_eq!(ended(0, &["replace", path, "RI8", "2", data]).1, "");
    let told = format!("hdf4: {path}: 302/2 and 202/2 both have that name; 302/2 was taken\n");
    assert_eq!(ended(0, &["read", path, "RI8", "2", "/dev/null"]).1, told);
    assert_eq!(ended(0, &["remove", path, "RI8", "2"]).1, told);
    // Then one alone is left.
    assert_eq!(ended(0, &["read", path, "RI8", "2", "/dev/null"]).1, "");
    (0..2).for_each(|_| assert_eq!(ended(0, &["undo", path]).1, ""));
    assert_eq!(fs::read(path).unwrap(), fs::read(file("raster_8.hdf")).unwrap());
}
