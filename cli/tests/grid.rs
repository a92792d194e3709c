//! Runs the built program on real files and a few others: the numbers of arrays and images, and pictures.

mod common;

use common::files::{array, array_file, file_of, image, linked_record, sample, sample_byte, shorts, slot, unstored};
use common::terminal::on_a_terminal;
use common::{file, granted, granted_bytes, misused, program, refused, text, Folder};
use std::fs::{self, File};

const UINT8: &[u8] = b"\x01\x15\x08\x01";
const INT8: &[u8] = b"\x01\x14\x08\x01";
const UINT16: &[u8] = b"\x01\x17\x10\x01";
const LOW_UINT16: &[u8] = b"\x01\x17\x10\x04";
const FLOAT32: &[u8] = b"\x01\x05\x20\x01";
const FLOAT64: &[u8] = b"\x01\x06\x40\x01";

/// The words of a line.
fn words(line: &str) -> Vec<&str> {
    line.trim_end().split(' ').collect()
}

fn joined<T: ToString>(numbers: impl Iterator<Item = T>, mark: &str) -> String {
    numbers.map(|number| number.to_string()).collect::<Vec<String>>().join(mark)
}

/// Checks that an array of the samples is printed, given by its data and by its group.
fn check_samples(name: &str, data: u16, [code, size, count]: [usize; 3]) {
    let by_data = granted(&["grid", &file(name), &data.to_string()]);
    assert_eq!(granted(&["grid", "--array", &file(name), &(data - 1).to_string()]), by_data);
    let bits: Vec<u64> = (0..count).map(|index| sample(size * index, size)).collect();
    let printed = words(&by_data).into_iter();
    match code {
        5 => assert_eq!(printed.map(|word| word.parse::<f32>().unwrap().to_bits().into()).collect::<Vec<u64>>(), bits),
        6 => assert_eq!(printed.map(|word| word.parse::<f64>().unwrap().to_bits()).collect::<Vec<u64>>(), bits),
        20 | 22 | 24 => {
            let unused = 64 - 8 * size;
            assert_eq!(by_data, joined(bits.iter().map(|bits| (bits << unused) as i64 >> unused), " ") + "\n");
        }
        _ => assert_eq!(by_data, joined(bits.iter(), " ") + "\n"),
    }
}

#[test]
fn arrays_of_each_type_are_printed() {
    let types = [[4, 1], [3, 1], [20, 1], [21, 1], [22, 2], [23, 2], [24, 4], [25, 4], [5, 4], [6, 8]];
    for (index, [code, size]) in types.into_iter().enumerate() {
        check_samples("sds_types.hdf", 3 + 2 * index as u16, [code, size, 6]);
    }
    let types = [[22, 2], [23, 2], [24, 4], [5, 4], [6, 8]];
    for (index, [code, size]) in types.into_iter().enumerate() {
        check_samples("sds_little_endian.hdf", 3 + 2 * index as u16, [code, size, 5]);
    }
}

/// The rows of an array of the numbers that make.c has, with so many columns.
fn rows(count: i32, columns: usize, mark: &str) -> Vec<String> {
    let numbers: Vec<i32> = (0..count).map(|index| 1000 * index - 20000).collect();
    numbers.chunks(columns).map(|row| joined(row.iter(), mark) + "\n").collect()
}

#[test]
fn rows_are_lines_and_planes_stand_apart() {
    let path = file("sds_ranks.hdf");
    for (reference, count, columns, rows_of_a_plane) in [("3", 3, 3, 1), ("5", 12, 4, 3), ("7", 24, 2, 4), ("9", 48, 2, 2)] {
        let planes: Vec<String> = rows(count, columns, " ").chunks(rows_of_a_plane).map(|plane| plane.concat()).collect();
        assert_eq!(granted(&["grid", &path, reference]), planes.join("\n"), "{reference}");
        assert_eq!(granted(&["grid", "--csv", &path, reference]), rows(count, columns, ",").concat(), "{reference}");
    }
    // The older interface, where references are alike.
    let path = file("dfsd.hdf");
    assert_eq!(granted(&["grid", &path, "2"]), rows(20, 5, " ").concat());
    let line = |row: usize| joined((0..5).map(|column| sample_byte(5 * row + column)), " ") + "\n";
    assert_eq!(granted(&["grid", &path, "0x3"]), (0..4).map(line).collect::<String>());
}

#[test]
fn arrays_and_images_of_one_file_are_told_apart() {
    let path = file("mixed.hdf");
    let line = |row: usize| joined((0..9).map(|column| sample_byte(9 * row + column)), " ") + "\n";
    let expected: String = (0..7).map(line).collect();
    assert_eq!(granted(&["grid", &path, "2"]), expected);
    assert_eq!(granted(&["grid", "--image", &path, "2"]), expected);
    check_samples("mixed.hdf", 4, [5, 4, 9]);
    let message = refused(&["grid", "--array", &path, "2"]);
    assert!(message.contains("ABSENT: reference 2 gives no array with its dimensions (number 11, place 0)"), "{message}");
    let message = refused(&["grid", &path, "11"]);
    assert!(message.contains("ABSENT: reference 11 gives no array and no image with its dimensions (number 11"), "{message}");
}

/// The lines of an image of the samples, of 3 components, that is read at these places.
fn image_lines(x: usize, y: usize, place: impl Fn(usize, usize, usize) -> usize, mark: &str) -> String {
    let pixel = |row: usize, column: usize| joined((0..3).map(|component| sample_byte(place(row, column, component))), ",");
    (0..y).map(|row| joined((0..x).map(|column| pixel(row, column)), mark) + "\n").collect()
}

#[test]
fn images_of_three_components_are_printed() {
    // The GR interface takes images in three orders, and stores each by pixel.
    let path = file("gr_24_bit.hdf");
    let places: [fn(usize, usize, usize) -> usize; 3] = [
        |row, column, component| (6 * row + column) * 3 + component,
        |row, column, component| (3 * row + component) * 6 + column,
        |row, column, component| (5 * component + row) * 6 + column,
    ];
    for (reference, place) in ["1", "2", "3"].into_iter().zip(places) {
        assert_eq!(granted(&["grid", &path, reference]), image_lines(6, 5, place, " "), "{reference}");
        assert_eq!(granted(&["grid", "--csv", &path, reference]), image_lines(6, 5, place, ","), "{reference}");
    }
    let path = file("raster_24.hdf");
    let by_pixel = image_lines(8, 6, |row, column, component| (8 * row + column) * 3 + component, " ");
    let by_plane = image_lines(8, 6, |row, column, component| (6 * component + row) * 8 + column, " ");
    assert_eq!((granted(&["grid", &path, "1"]), granted(&["grid", &path, "2"])), (by_pixel, by_plane));
}

#[test]
fn images_are_stored_in_three_orders() {
    let folder = Folder::new("orders");
    let orders: [&[u8]; 3] =
        [b"\x01\x02\x03\x04\x05\x06\x07\x08", b"\x01\x03\x02\x04\x05\x07\x06\x08", b"\x01\x03\x05\x07\x02\x04\x06\x08"];
    for (interlace, data) in orders.into_iter().enumerate() {
        let dimensions = image(2, 2, 2, interlace as u16);
        let path = folder.holding("image.hdf", &file_of(&[(302, 1, data), (300, 1, &dimensions), (106, 1, UINT8)]));
        assert_eq!(granted(&["grid", text(&path), "1"]), "1,2 3,4\n5,6 7,8\n", "{interlace}");
        assert_eq!(granted(&["grid", "--csv", text(&path), "1"]), "1,2,3,4\n5,6,7,8\n", "{interlace}");
        assert!(misused(&["grid", "--pgm", text(&path), "1"]).contains("an image of 2 components is no grey picture"));
    }
}

#[test]
fn groups_say_which_dimensions_belong_to_data() {
    let folder = Folder::new("groups");
    // As the GR interface writes two images that are written in another order than made: 302/1 is described by 300/2.
    let (small, large) = (image(1, 2, 1, 0), image(3, 2, 1, 0));
    let (first, second) = (shorts(&[300, 1, 302, 2]), shorts(&[300, 2, 302, 1]));
    let elements: [(u16, u16, &[u8]); 7] = [
        (302, 1, b"\x01\x02\x03\x04\x05\x06"),
        (302, 2, b"\x07\x08"),
        (106, 1, UINT8),
        (300, 1, &small),
        (306, 1, &first),
        (300, 2, &large),
        (306, 2, &second),
    ];
    let path = folder.holding("crossed.hdf", &file_of(&elements));
    assert_eq!(granted(&["grid", text(&path), "1"]), "1 2 3\n4 5 6\n");
    assert_eq!(granted(&["grid", text(&path), "2"]), "7\n8\n");

    // An older group, and one whose members are not there.
    let (group, lost, dimensions) = (shorts(&[701, 4, 702, 5, 106, 1]), shorts(&[701, 9, 702, 5]), array(&[2]));
    let elements: [(u16, u16, &[u8]); 5] =
        [(702, 5, b"\x01\x02"), (106, 1, UINT8), (701, 4, &dimensions), (720, 6, &lost), (700, 7, &group)];
    let path = folder.holding("older.hdf", &file_of(&elements));
    assert_eq!(granted(&["grid", text(&path), "5"]), "1 2\n");
    assert_eq!(granted(&["grid", text(&path), "7"]), "1 2\n");
    assert!(refused(&["grid", text(&path), "6"]).contains("ABSENT"));

    let (other, wide) = (shorts(&[702, 5, 701, 8]), array(&[1]));
    let more: [(u16, u16, &[u8]); 2] = [(720, 9, &other), (701, 8, &wide)];
    let path = folder.holding("two.hdf", &file_of(&[&elements[..], &more].concat()));
    let message = misused(&["grid", text(&path), "5"]);
    assert!(message.contains("groups describe 702/5 by 701/4 and by 701/8; give the reference of a group"), "{message}");
    assert_eq!((granted(&["grid", text(&path), "7"]), granted(&["grid", text(&path), "9"])), ("1 2\n".into(), "1\n".into()));
}

#[test]
fn images_without_an_order_of_bytes_are_read_as_libhdf4_reads_them() {
    let folder = Folder::new("order");
    let number_type = b"\x01\x16\x10\x00";
    let (dimensions, data) = (image(2, 1, 1, 0), b"\x01\x02\xff\xfe");
    let path = folder.holding("image.hdf", &file_of(&[(302, 1, data), (300, 1, &dimensions), (106, 1, number_type)]));
    assert_eq!(granted(&["grid", text(&path), "1"]), "258 -2\n");
    let path = folder.holding("array.hdf", &array_file(number_type, &[2], data));
    assert!(refused(&["grid", text(&path), "2"]).contains("TYPE: a number type is not known: code 22, 16 bits, class 0"));
}

#[test]
fn rows_may_be_given_where_data_and_dimensions_do_not_agree() {
    let folder = Folder::new("rows");
    let path = folder.holding("long.hdf", &array_file(UINT8, &[2, 2], b"\x01\x02\x03\x04\x05\x06\x07"));
    let path = text(&path);
    assert_eq!(granted(&["grid", path, "2"]), "1 2\n3 4\n");
    for (rows, lines) in [("3", "1 2\n3 4\n5 6\n"), ("1", "1 2\n"), ("0", "")] {
        assert_eq!(granted(&["grid", "--rows", rows, path, "2"]), lines);
    }
    for (rows, needed) in [("4", "8"), ("4294967295", "8589934590")] {
        let message = refused(&["grid", "--rows", rows, path, "2"]);
        assert!(
            message.contains(&format!("RECORD: 702/2 has 7 bytes, and --rows {rows} asks for {needed} (number 15")),
            "{message}"
        );
    }
    let line = folder.holding("line.hdf", &array_file(UINT8, &[2], b"\x01\x02\x03"));
    assert_eq!(granted(&["grid", "--rows", "3", text(&line), "2"]), "1 2 3\n");
    let short = folder.holding("short.hdf", &array_file(UINT8, &[3, 2], b"\x01\x02\x03\x04\x05"));
    let told = "RECORD: 702/2 has 5 bytes, and its dimensions ask for 6 (number 15, place 34)\n";
    assert!(refused(&["grid", text(&short), "2"]).ends_with(told));
    assert_eq!(granted(&["grid", "--rows", "2", text(&short), "2"]), "1 2\n3 4\n");
    assert!(misused(&["grid", "--rows", "-1", path, "2"]).contains("--rows -1: not a number from 0 to 4294967295"));

    // An image has its height; by plane the whole of it, since where a plane ends depends on it.
    for (interlace, lines) in [(0, "0,1 2,3\n"), (1, "0,2 1,3\n")] {
        let elements: [(u16, u16, &[u8]); 3] =
            [(300, 2, &image(2, 3, 2, interlace)), (302, 2, &[0, 1, 2, 3, 4, 5, 6, 7]), (106, 1, UINT8)];
        let path = folder.holding("image.hdf", &file_of(&elements));
        assert!(refused(&["grid", text(&path), "2"]).contains("302/2 has 8 bytes, and its dimensions ask for 12 "));
        assert_eq!(granted(&["grid", "--rows", "1", text(&path), "2"]), lines);
    }
    let elements: [(u16, u16, &[u8]); 3] = [(300, 2, &image(2, 3, 2, 2)), (302, 2, &[0, 1, 2, 3, 4, 5, 6, 7]), (106, 1, UINT8)];
    let path = folder.holding("planes.hdf", &file_of(&elements));
    assert!(refused(&["grid", "--rows", "1", text(&path), "2"]).contains("302/2 has 8 bytes, and --rows 1 asks for 4 "));
    assert_eq!(granted(&["grid", "--rows", "2", text(&path), "2"]), "0,4 1,5\n2,6 3,7\n");
}

#[test]
fn a_reference_of_both_an_array_and_an_image_needs_an_option() {
    let folder = Folder::new("both");
    let (line, dimensions) = (array(&[2]), image(1, 1, 1, 0));
    let elements: [(u16, u16, &[u8]); 5] =
        [(106, 1, UINT8), (701, 2, &line), (702, 2, b"\x01\x02"), (300, 2, &dimensions), (302, 2, b"\x03")];
    let path = folder.holding("both.hdf", &file_of(&elements));
    let path = text(&path);
    let message = misused(&["grid", path, "2"]);
    assert_eq!(message, format!("hdf4: {path}: reference 2 is both an array and an image; give --array or --image\n"));
    assert_eq!(granted(&["grid", "--array", path, "2"]), "1 2\n");
    assert_eq!(granted(&["grid", path, "2", "--image"]), "3\n");
    assert!(misused(&["grid", "--array", "--image", path, "2"]).contains("--array and --image together"));
    assert_eq!(granted(&["grid", "--text", "--array", path, "2"]), "1 2\n");
    for [one, other] in [["--text", "--csv"], ["--text", "--pgm"], ["--csv", "--pgm"]] {
        assert!(misused(&["grid", one, other, path, "2"]).contains(&format!("{one} and {other} together")));
    }
}

#[test]
fn linked_data_are_read() {
    let folder = Folder::new("linked");
    let record = linked_record([4, 2, 2, 2], 1);
    let (table, dimensions) = (shorts(&[0, 2, 3]), array(&[2, 2]));
    let elements: [(u16, u16, &[u8]); 6] = [
        (16384 + 702, 2, &record),
        (20, 1, &table),
        (20, 2, b"\x01\x02"),
        (20, 3, b"\x03\x04"),
        (106, 1, UINT8),
        (701, 2, &dimensions),
    ];
    let path = folder.holding("linked.hdf", &file_of(&elements));
    assert_eq!(granted(&["grid", text(&path), "2"]), "1 2\n3 4\n");
}

#[test]
fn arrays_that_grew_in_turn_are_read() {
    let path = file("sds_unlimited.hdf");
    for (array, by_group, by_data) in [(0, "2", "4"), (1, "3", "5")] {
        // Every second row was written, and libhdf4 filled in the others.
        let number = |row: usize, column: usize| if row % 2 == array { sample(row + 2 * column, 2) as i16 } else { -32767 };
        let line = |row: usize| joined((0..5).map(|column| number(row, column)), " ") + "\n";
        let expected: String = (0..11 + array).map(line).collect();
        assert_eq!(granted(&["grid", &path, by_group]), expected);
        assert_eq!(granted(&["grid", &path, by_data]), expected);
    }
    let message = refused(&["grid", "--most", "100", &path, "2"]);
    assert!(message.contains("SMALL") && message.contains("; the element has 110 bytes, see --most"), "{message}");
}

#[test]
fn refusals_name_their_rule() {
    let folder = Folder::new("refusals");
    let refused_file = |bytes: &[u8]| refused(&["grid", text(&folder.holding("file.hdf", bytes)), "2"]);
    for number_type in [b"\x01\x07\x20\x01", b"\x01\x18\x20\x02", b"\x01\x18\x10\x01"] {
        let message = refused_file(&array_file(number_type, &[1], &[0; 4]));
        let [_, code, width, class] = number_type;
        let why = format!("TYPE: a number type is not known: code {code}, {width} bits, class {class} (number 16, place 10)");
        assert!(message.contains(&why), "{message}");
    }
    let message = refused_file(&array_file(UINT16, &[3, 2], &[0; 11]));
    let why = format!("RECORD: 702/2 has 11 bytes, and its dimensions ask for 12 (number 15, place {})", slot(2));
    assert!(message.contains(&why), "{message}");
    let message = refused_file(&array_file(UINT16, &[u32::MAX; 9], &[0; 11]));
    assert!(message.contains("RECORD: 702/2 has 11 bytes, and its dimensions ask for too many"), "{message}");
    assert!(refused_file(&array_file(b"\x01\x15\x08", &[1], b"\0")).contains("106/1: RECORD: a record breaks its layout"));
    let elements: [(u16, u16, &[u8]); 2] = [(701, 2, &array(&[1])[..13]), (702, 2, b"\0")];
    assert!(refused_file(&file_of(&elements)).contains("701/2: RECORD: a record breaks its layout (number 15, place 10)"));
    let mut other = array(&[1]);
    other[7] = 107;
    let message = refused_file(&file_of(&[(701, 2, &other), (702, 2, b"\0")]));
    assert!(message.contains("TYPE: 701/2 names 107/1, which is no number type (number 16, place 10)"), "{message}");
    assert!(refused_file(&file_of(&[(701, 2, &array(&[1])), (702, 2, b"\0")])).contains("106/1: ABSENT"));

    let mut packed = image(1, 1, 1, 0);
    packed[17] = 12;
    let message = refused_file(&file_of(&[(300, 2, &packed), (302, 2, b"\0"), (106, 1, UINT8)]));
    assert!(message.contains("STORAGE: the image 302/2 is compressed, by 12/0 (number 12, place 10)"), "{message}");
    let compressed = file("raster_8.hdf");
    let message = refused(&["grid", &compressed, "3"]);
    assert!(message.contains("STORAGE: the image 303/3 is compressed, by 11/3 (number 12, place 154)"), "{message}");
    assert!(refused(&["grid", &file("sds_deflate.hdf"), "3"]).contains("STORAGE"));
    assert!(refused(&["grid", &file("two_machine_types.hdf"), "3"]).contains("TWICE"));
    assert!(misused(&["grid", &compressed]).contains("usage: hdf4 grid"));
    assert!(misused(&["grid", &compressed, "x"]).contains("not a number from 0 to 65535"));
}

#[test]
fn data_that_are_not_stored_are_told() {
    let folder = Folder::new("unstored");
    let refused_file = |path: &str, word: &str| refused(&["grid", path, word]).replace(&format!("hdf4: {path}: "), "");
    // An array that libhdf4 never wrote has a group and dimensions alone.
    let never = refused_file(&file("sds_unwritten.hdf"), "2");
    assert_eq!(never, "ABSENT: the array of group 720/2 has dimensions, and no data are stored (number 11, place 0)\n");
    let path = folder.unstored_copy_of("sds_ranks.hdf", slot(2));
    for reference in ["4", "5"] {
        let told = "NOT_STORED: the numbers of the array 702/5 are not stored yet (number 29, place 34)\n";
        assert_eq!(refused_file(text(&path), reference), told);
    }
    assert_eq!(granted(&["grid", text(&path), "3"]), rows(3, 3, " ").concat());

    // As libhdf4 writes an image without data: the group names no 302, and its slot is set aside.
    let (dimensions, group) = (image(3, 4, 1, 0), shorts(&[300, 1, 302, 0]));
    let elements: [(u16, u16, &[u8]); 4] = [(106, 1, UINT8), (300, 1, &dimensions), (306, 1, &group), (302, 1, b"")];
    let path = folder.holding("image.hdf", &unstored(file_of(&elements), slot(3)));
    let told = format!("NOT_STORED: the numbers of the image 302/1 are not stored yet (number 29, place {})\n", slot(3));
    assert_eq!(refused_file(text(&path), "1"), told);
}

#[test]
fn records_that_are_not_stored_are_told() {
    let folder = Folder::new("records");
    let told = |index: usize| {
        let path = folder.holding("array.hdf", &unstored(array_file(UINT8, &[2], b"\x01\x02"), slot(index)));
        refused(&["grid", text(&path), "2"])
    };
    let rule = "NOT_STORED: the element is named in the directory and not stored yet";
    assert!(told(0).ends_with(&format!(": 106/1: {rule} (number 29, place {})\n", slot(0))));
    assert!(told(1).ends_with(&format!(": 701/2: {rule} (number 29, place {})\n", slot(1))));
    // A group that is not stored names nothing, and dimensions with the reference of the data are taken.
    let elements: [(u16, u16, &[u8]); 4] = [(106, 1, UINT8), (701, 2, &array(&[2])), (702, 2, b"\x01\x02"), (720, 3, b"")];
    let path = folder.holding("group.hdf", &unstored(file_of(&elements), slot(3)));
    assert_eq!(granted(&["grid", text(&path), "2"]), "1 2\n");
    assert!(refused(&["grid", text(&path), "3"]).contains("ABSENT: reference 3 gives no array and no image"));
}

#[test]
fn sizes_of_nothing_make_no_lines() {
    let folder = Folder::new("nothing");
    for sizes in [&[u32::MAX, u32::MAX, u32::MAX, 0][..], &[0, u32::MAX], &[0]] {
        let path = folder.holding("none.hdf", &array_file(FLOAT64, sizes, b""));
        assert_eq!(granted(&["grid", text(&path), "2"]), "", "{sizes:?}");
        assert_eq!(granted(&["grid", "--csv", text(&path), "2"]), "", "{sizes:?}");
        // Nothing has to be stored for them.
        let path = folder.holding("unstored.hdf", &unstored(array_file(FLOAT64, sizes, b""), slot(2)));
        assert_eq!(granted(&["grid", text(&path), "2"]), "", "{sizes:?}");
    }
    assert!(misused(&["grid", "--pgm", &folder.word("none.hdf"), "2"]).contains("without numbers there is no picture"));
}

#[test]
fn an_array_of_no_rows_that_was_never_written_makes_no_lines() {
    let folder = Folder::new("rowless");
    // As libhdf4 leaves it: a group names its dimensions alone.
    let (dimensions, group) = (array(&[0, 3]), shorts(&[106, 1, 701, 2]));
    let path = folder.holding("rowless.hdf", &file_of(&[(106, 1, UINT8), (701, 2, &dimensions), (720, 4, &group)]));
    assert_eq!(granted(&["grid", text(&path), "720/4"]), "");
    let none = "ABSENT: the array of group 720/4 has dimensions, and no data are stored (number 11, place 0)\n";
    for words in [&["4"][..], &["--rows", "1", "4"], &["--rows", "1", "720/4"]] {
        assert!(refused(&[&["grid", text(&path)], words].concat()).ends_with(none), "{words:?}");
    }
    assert_eq!(granted(&["grids", text(&path)]), "array name \"Data-Set-4\" group 720/4 sizes 0 x 3 type uint8 not stored\n");
}

#[test]
fn lines_go_to_a_file() {
    let folder = Folder::new("out");
    let (path, out) = (file("sds_ranks.hdf"), folder.word("out.csv"));
    for _ in 0..2 {
        let expected = rows(12, 4, ",").concat();
        assert_eq!(granted(&["grid", "--csv", &path, "5", &out]), format!("{out}: {} bytes\n", expected.len()));
        assert_eq!(fs::read(&out).unwrap(), expected.as_bytes());
        fs::write(&out, b"something else").unwrap();
    }
    assert_eq!(granted(&["grid", &path, "5", "-"]), granted(&["grid", &path, "5"]));
    let output = program().args(["grid", "--pgm", "-", "5"]).stdin(File::open(&path).unwrap()).output().unwrap();
    assert_eq!(output.stdout, granted_bytes(&["grid", "--pgm", &path, "5"]));
}

/// Width, height, the greatest grey, and the bytes of a picture.
fn picture(words: &[&str]) -> (usize, usize, usize, Vec<u8>) {
    let bytes = granted_bytes(words);
    let mut lines = bytes.splitn(4, |byte| *byte == b'\n');
    let mut line = || lines.next().unwrap();
    assert_eq!(line(), b"P5");
    let numbers = |line: &[u8]| -> Vec<usize> {
        std::str::from_utf8(line).unwrap().split(' ').map(|number| number.parse().unwrap()).collect()
    };
    let (sizes, most, greys) = (numbers(line()), numbers(line()), line());
    assert_eq!(greys.len(), sizes[0] * sizes[1] * if most[0] > 255 { 2 } else { 1 });
    (sizes[0], sizes[1], most[0], greys.to_vec())
}

#[test]
fn unsigned_numbers_are_greys_as_they_are() {
    let folder = Folder::new("unsigned");
    let samples: Vec<u8> = (0..80).map(sample_byte).collect();
    assert_eq!(picture(&["grid", "--pgm", &file("gr_8_bit.hdf"), "1"]), (10, 8, 255, samples.clone()));
    assert_eq!(picture(&["grid", "--pgm", &file("mixed.hdf"), "2"]), (9, 7, 255, samples[..63].to_vec()));
    // Characters too.
    assert_eq!(picture(&["grid", "--pgm", &file("sds_types.hdf"), "3"]), (6, 1, 255, samples[..6].to_vec()));
    for number_type in [UINT16, LOW_UINT16] {
        let data: &[u8] = if number_type == UINT16 { b"\x01\x02\xff\xfe" } else { b"\x02\x01\xfe\xff" };
        let path = folder.holding("greys.hdf", &array_file(number_type, &[2, 1], data));
        assert_eq!(picture(&["grid", "--pgm", text(&path), "2"]), (1, 2, 65535, b"\x01\x02\xff\xfe".to_vec()));
    }
}

/// The greys of an array of one row.
fn greys(folder: &Folder, number_type: &[u8], data: &[u8]) -> Vec<u8> {
    let count = data.len() / usize::from(number_type[2] / 8);
    let path = folder.holding("scaled.hdf", &array_file(number_type, &[count as u32], data));
    let (width, height, most, greys) = picture(&["grid", "--pgm", text(&path), "2"]);
    assert_eq!((width, height, most), (count, 1, 255));
    greys
}

#[test]
fn other_numbers_are_scaled() {
    let folder = Folder::new("scaled");
    assert_eq!(greys(&folder, INT8, b"\x80\x00\x7f\xff"), [0, 128, 255, 127]);
    assert_eq!(greys(&folder, INT8, b"\x05\x05"), [0, 0]);
    let floats = |numbers: &[f32]| numbers.iter().flat_map(|number| number.to_be_bytes()).collect::<Vec<u8>>();
    let numbers = floats(&[-1.0, f32::NAN, 1.0, f32::INFINITY, 0.0, f32::NEG_INFINITY, 0.5]);
    assert_eq!(greys(&folder, FLOAT32, &numbers), [0, 0, 255, 255, 128, 0, 191]);
    assert_eq!(greys(&folder, FLOAT32, &floats(&[f32::NAN, f32::INFINITY, f32::NEG_INFINITY])), [0, 255, 0]);
    let doubles = |numbers: &[f64]| numbers.iter().flat_map(|number| number.to_be_bytes()).collect::<Vec<u8>>();
    assert_eq!(greys(&folder, FLOAT64, &doubles(&[f64::MIN, 0.0, f64::MAX])), [0, 128, 255]);
    assert_eq!(greys(&folder, FLOAT64, &doubles(&[5e-324, 0.0])), [255, 0]);
    // From -20000 to -9000, by thousands.
    let (width, height, most, greys) = picture(&["grid", "--pgm", &file("sds_ranks.hdf"), "5"]);
    assert_eq!((width, height, most), (4, 3, 255));
    assert_eq!(greys, (0..12).map(|index| (255.0 * f64::from(index) / 11.0).round() as u8).collect::<Vec<u8>>());
}

#[test]
fn pictures_have_two_dimensions_and_go_to_no_terminal() {
    let folder = Folder::new("pictures");
    for (reference, rank) in [("7", 3), ("9", 4)] {
        let message = misused(&["grid", "--pgm", &file("sds_ranks.hdf"), reference]);
        assert!(message.contains(&format!("an array of {rank} dimensions is no picture")), "{message}");
    }
    let (path, out) = (file("gr_8_bit.hdf"), folder.word("grey.pgm"));
    assert_eq!(granted(&["grid", "--pgm", &path, "1", &out]), format!("{out}: 92 bytes\n"));
    assert_eq!(fs::read(&out).unwrap(), granted_bytes(&["grid", "--pgm", &path, "1"]));
    let (status, seen) = on_a_terminal(program().args(["grid", "--pgm", &path, "1"]));
    assert_eq!(status, 2);
    assert!(seen.contains("no text") && !seen.contains("P5"), "{seen}");
    let copy = folder.copy_of("gr_8_bit.hdf");
    assert!(misused(&["grid", "--pgm", text(&copy), "1", text(&copy)]).contains("left alone"));
}
