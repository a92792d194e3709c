//! Runs the built program on real files and a few others: the values of Vdatas, as lines and as JSON.

mod common;

use common::files::{file_of, sample, shorts, slot};
use common::json::Json;
use common::{file, granted, misused, program, refused, text, Folder};
use std::ffi::OsStr;
use std::fs::{self, File};
use std::io::{BufRead, BufReader};
use std::os::unix::ffi::OsStrExt;
use std::process::Stdio;
use std::time::{Duration, Instant};

const HEAD: u16 = 1962;
const VALUES: u16 = 1963;

/// A field of a Vdata: name, type, bytes of one number, and how many numbers.
type Field<'a> = (&'a [u8], u16, u16, u16);

/// The head of a Vdata by record.
fn head(name: &[u8], records: u32, fields: &[Field]) -> Vec<u8> {
    let sizes: Vec<u16> = fields.iter().map(|field| field.2 * field.3).collect();
    let offsets: Vec<u16> = (0..sizes.len()).map(|index| sizes[..index].iter().sum()).collect();
    let (types, orders): (Vec<u16>, Vec<u16>) = fields.iter().map(|field| (field.1, field.3)).unzip();
    let counts = [sizes.iter().sum(), fields.len() as u16];
    let mut bytes = [&[0, 0][..], &records.to_be_bytes(), &shorts(&counts)].concat();
    [types, sizes, offsets, orders].iter().for_each(|numbers| bytes.extend(shorts(numbers)));
    let names = fields.iter().map(|field| field.0).chain([name, b"class"]);
    names.for_each(|name| bytes.extend([&shorts(&[name.len() as u16])[..], name].concat()));
    [bytes, shorts(&[0, 0, 3, 0])].concat()
}

#[test]
fn values_of_each_type_are_printed() {
    let path = file("vdata_types.hdf");
    let printed = |reference: &str| granted(&["values", &path, reference]);
    for reference in ["2", "3"] {
        assert_eq!(printed(reference), "value\n\"\\x00\"\n\"\\x07\"\n\"\\x0e\"\n\"\\x15\"\n");
    }
    for (reference, size) in [("4", 1), ("5", 1), ("6", 2), ("7", 2), ("8", 4), ("9", 4)] {
        let numbers: String = (0..4).map(|record| format!("{}\n", sample(size * record, size))).collect();
        assert_eq!(printed(reference), format!("value\n{numbers}"), "{reference}");
    }
    let bits = |reference: &str, parse: fn(&str) -> u64| printed(reference).lines().skip(1).map(parse).collect::<Vec<u64>>();
    let floats = bits("10", |word| word.parse::<f32>().unwrap().to_bits().into());
    assert_eq!(floats, (0..4).map(|record| sample(4 * record, 4)).collect::<Vec<u64>>());
    let floats = bits("11", |word| word.parse::<f64>().unwrap().to_bits());
    assert_eq!(floats, (0..4).map(|record| sample(8 * record, 8)).collect::<Vec<u64>>());
}

/// The lines of a Vdata of roads that has these records of the samples.
fn roads(records: impl Iterator<Item = usize>) -> String {
    let line = |record: usize| {
        let number = |field: usize| sample(12 * record + 4 * field, 4);
        format!("{}\t{}\t{}\n", number(0), number(1), number(2))
    };
    format!("row\tcol\troad\n{}", records.map(line).collect::<String>())
}

#[test]
fn values_are_printed_alike_by_record_by_field_and_low_byte_first() {
    let path = file("vdata_interlaces.hdf");
    let expected = roads(0..7);
    for word in ["2", "0x3", "4", "by record", "by field", "low byte first"] {
        assert_eq!(granted(&["values", &path, word]), expected, "{word}");
    }
}

/// A base type, two numbers of it with their bytes high byte first, and how they are printed, in lines and in JSON.
type Numbers = (u16, [&'static [u8]; 2], [&'static str; 2]);

const NUMBERS: [Numbers; 10] = [
    (3, [b"\"", b"\xe9"], ["\"\\\"\\xe9\"", "\"\\\"\\u00e9\""]),
    (4, [b"n", b"o"], ["\"no\"", "\"no\""]),
    (5, [b"\x3f\xc0\0\0", b"\x7f\x80\0\x01"], ["1.5 NaN", "[1.5,\"NaN\"]"]),
    (6, [b"\xc0\x04\0\0\0\0\0\0", b"\x7f\xf0\0\0\0\0\0\0"], ["-2.5 inf", "[-2.5,\"Infinity\"]"]),
    (20, [b"\x80", b"\x7f"], ["-128 127", "[-128,127]"]),
    (21, [b"\x80", b"\x7f"], ["128 127", "[128,127]"]),
    (22, [b"\xff\xfe", b"\x01\x2c"], ["-2 300", "[-2,300]"]),
    (23, [b"\xff\xfe", b"\x01\x2c"], ["65534 300", "[65534,300]"]),
    (24, [b"\x80\0\0\x01", b"\0\0\x01\x2c"], ["-2147483647 300", "[-2147483647,300]"]),
    (25, [b"\x80\0\0\x01", b"\0\0\x01\x2c"], ["2147483649 300", "[2147483649,300]"]),
];

#[test]
fn numbers_of_every_type_are_printed_alike_in_either_byte_order() {
    let folder = Folder::new("orders");
    for (order, added) in [("big", 0), ("little", 16384)] {
        let fields = NUMBERS.map(|(base, [one, _], _)| (&b"n"[..], base + added, one.len() as u16, 2));
        let mut values: Vec<Vec<u8>> = NUMBERS.iter().flat_map(|(_, numbers, _)| numbers.map(<[u8]>::to_vec)).collect();
        if order == "little" {
            values.iter_mut().for_each(|number| number.reverse());
        }
        let image = file_of(&[(HEAD, 1, &head(b"", 1, &fields)), (VALUES, 1, &values.concat())]);
        let path = folder.holding("orders.hdf", &image);

        let names = ["n"; 10].join("\t");
        let line = NUMBERS.map(|(_, _, [line, _])| line).join("\t");
        assert_eq!(granted(&["values", text(&path), "1"]), format!("{names}\n{line}\n"));

        let json = granted(&["values", "--json", text(&path), "1"]);
        let record = NUMBERS.map(|(_, _, [_, json])| json).join(",");
        assert!(json.ends_with(&format!("\"records\":[[{record}]]}}\n")), "{json}");
        for (field, (base, ..)) in Json::read(&json)["fields"].items().iter().zip(NUMBERS) {
            assert_eq!(field.keys(), ["name", "type", "byte_order", "order"]);
            assert_eq!((field["type"].number::<u16>(), field["byte_order"].text()), (base + added, order));
        }
    }
}

/// Types that are not known, also less 16384.
#[test]
fn values_of_other_types_are_refused() {
    let folder = Folder::new("types");
    for code in [0, 7, 26, 16384, 16391, 16410, 32768 + 24, 49152 + 24, 65535] {
        let head = head(b"snow", 1, &[(b"n", code, 1, 1)]);
        let path = folder.holding("types.hdf", &file_of(&[(HEAD, 1, &head), (VALUES, 1, b"n")]));
        let path = text(&path);
        let expected = "Vdata 1: TYPE: a number type is not known (number 16, place 10)";
        for words in [&["values", path, "1"][..], &["values", "--json", path, "1"]] {
            assert_eq!(refused(words), format!("hdf4: {path}: {expected}\n"), "{code}");
        }
        assert!(refused(&["values", path, "snow"]).contains("there is no Vdata named \"snow\", but 1 cannot be read"));
    }
}

#[test]
fn fields_are_separated_by_tabs_and_numbers_by_spaces() {
    let printed = granted(&["values", &file("vdata_fields.hdf"), "2"]);
    let lines: Vec<Vec<&str>> = printed.lines().map(|line| line.split('\t').collect()).collect();
    assert_eq!(lines.len(), 6);
    assert_eq!(lines[0], ["name", "place", "count", "sum"]);
    assert_eq!(lines[1][0], "\"\\x00\\x07\\x0e\\x15\\x1c#*18?FM\"");
    for line in &lines[1..] {
        assert_eq!(line.iter().map(|cell| cell.split(' ').count()).collect::<Vec<_>>(), [1, 3, 1, 2]);
    }
}

#[test]
fn json_has_the_fields_and_the_records() {
    let json = Json::read(&granted(&["values", "--json", &file("vdata_fields.hdf"), "stations"]));
    assert_eq!(json.keys(), ["ref", "name", "class", "interlace", "fields", "records"]);
    assert_eq!((json["ref"].number(), json["interlace"].number()), (2, 0));
    assert_eq!((json["name"].text(), json["class"].text()), ("stations", "mixed"));
    let field = |field: &Json| (field["name"].text().to_string(), field["type"].number(), field["order"].number());
    let fields: Vec<(String, u16, u16)> = json["fields"].items().iter().map(field).collect();
    let expected = [("name", 4, 12), ("place", 5, 3), ("count", 22, 1), ("sum", 6, 2)];
    assert_eq!(fields, expected.map(|(name, code, order)| (name.to_string(), code, order)));
    assert_eq!(json["records"].items().len(), 5);
    for (index, record) in json["records"].items().iter().enumerate() {
        // A record has 42 bytes: 12 characters, three floats of 4 bytes, a number of 2, two floats of 8.
        let start = 42 * index;
        let characters: String = (start..start + 12).map(|place| char::from(sample(place, 1) as u8)).collect();
        let [name, place, count, sum] = record.items() else { panic!("{record:?}") };
        assert_eq!(name.text(), characters);
        let floats: Vec<u32> = place.items().iter().map(|float| float.number::<f32>().to_bits()).collect();
        assert_eq!(floats, [12, 16, 20].map(|offset| sample(start + offset, 4) as u32));
        assert_eq!(count.number::<i16>(), sample(start + 24, 2) as i16);
        let floats: Vec<u64> = sum.items().iter().map(|float| float.number::<f64>().to_bits()).collect();
        assert_eq!(floats, [26, 34].map(|offset| sample(start + offset, 8)));
    }
}

#[test]
fn json_has_text_for_what_is_no_number() {
    let folder = Folder::new("odd");
    let fields: [Field; 3] = [(b"a\"\n", 5, 4, 5), (b"a\"\n", 6, 8, 1), (b"\xe9", 4, 1, 1)];
    let floats = [f32::NAN, f32::INFINITY, f32::NEG_INFINITY, -0.0, 0.1].map(f32::to_be_bytes).concat();
    let values = [&floats[..], &1e300f64.to_be_bytes(), b"\x80"].concat();
    let path = folder.holding("odd.hdf", &file_of(&[(HEAD, 1, &head(b"\xff\\", 1, &fields)), (VALUES, 1, &values)]));
    let expected = "{\"ref\":1,\"name\":\"\\u00ff\\\\\",\"class\":\"class\",\"interlace\":0,\"fields\":[\
        {\"name\":\"a\\\"\\n\",\"type\":5,\"byte_order\":\"big\",\"order\":5},\
        {\"name\":\"a\\\"\\n\",\"type\":6,\"byte_order\":\"big\",\"order\":1},\
        {\"name\":\"\\u00e9\",\"type\":4,\"byte_order\":\"big\",\"order\":1}],\
        \"records\":[[[\"NaN\",\"Infinity\",\"-Infinity\",-0.0,0.1],1e300,\"\\u0080\"]]}\n";
    let printed = granted(&["values", "--json", text(&path), "1"]);
    assert_eq!(printed, expected);
    let json = Json::read(&printed);
    assert_eq!((json["name"].text(), json["fields"].items()[0]["name"].text()), ("\u{ff}\\", "a\"\n"));
    assert_eq!(json["records"].items()[0].items()[2].text(), "\u{80}");
    let lines = granted(&["values", text(&path), "1"]);
    assert_eq!(lines, "a\\\"\\n\ta\\\"\\n\t\\xe9\nNaN inf -inf -0.0 0.1\t1e300\t\"\\x80\"\n");
    // A name that no text can be.
    let named = program().args(["values", text(&path)]).arg(OsStr::from_bytes(b"\xff\\")).output().unwrap();
    assert_eq!(String::from_utf8(named.stdout).unwrap(), lines);
}

#[test]
fn no_fields_make_no_lines() {
    let folder = Folder::new("fieldless");
    let path = folder.holding("none.hdf", &file_of(&[(HEAD, 1, &head(b"", u32::MAX, &[]))]));
    assert_eq!(granted(&["values", text(&path), "1"]), "\n");
    assert_eq!(granted(&["values", text(&path), ""]), "\n");
    let json = Json::read(&granted(&["values", "--json", text(&path), "1"]));
    assert!(json["fields"].items().is_empty() && json["records"].items().is_empty());
}

/// A Vdata of one byte, by record.
fn byte_named(name: &[u8]) -> Vec<u8> {
    head(name, 1, &[(b"n", 21, 1, 1)])
}

#[test]
fn vdatas_are_found_by_name() {
    let folder = Folder::new("names");
    let (seven, one, two, broken) = (byte_named(b"7"), byte_named(b"twin"), byte_named(b"twin"), [0; 3]);
    let heads: [(u16, u16, &[u8]); 4] =
        [(HEAD, 9, &two), (HEAD, 5, &seven), (HEAD, 3, &one), (HEAD, 7, &seven[..seven.len() - 1])];
    let values: [(u16, u16, &[u8]); 3] = [(VALUES, 9, b"\x09"), (VALUES, 5, b"\x05"), (VALUES, 3, b"\x03")];
    let path = folder.holding("names.hdf", &file_of(&[&heads[..3], &values[..]].concat()));
    let path = text(&path);
    assert_eq!(granted(&["values", path, "--name", "7"]), "n\n5\n");
    assert_eq!(granted(&["values", "--name=7", path]), "n\n5\n");
    assert!(refused(&["values", path, "7"]).contains("Vdata 7: ABSENT: there is no element with that tag and reference"));
    let message = misused(&["values", path, "twin"]);
    assert_eq!(message, format!("hdf4: {path}: several Vdatas are named \"twin\"; give a reference: 3, 9\n"));
    let message = refused(&["values", "--json", path, "o\n"]);
    assert_eq!(message, format!("hdf4: {path}: ABSENT: there is no Vdata named \"o\\n\" (number 11, place 0)\n"));

    let unread = folder.holding("unread.hdf", &file_of(&[heads[3], (HEAD, 8, &broken)]));
    let message = refused(&["values", text(&unread), "twin"]);
    assert!(message.contains("ABSENT: there is no Vdata named \"twin\", but 2 cannot be read (number 11, place 0)"), "{message}");
}

#[test]
fn a_name_is_found_among_thousands() {
    let folder = Folder::new("thousands");
    let heads: Vec<Vec<u8>> = (1..=2047).map(|reference| byte_named(format!("road {reference}").as_bytes())).collect();
    let mut elements: Vec<(u16, u16, &[u8])> = Vec::new();
    for reference in (1..=2047).rev() {
        elements.push((HEAD, reference, &heads[usize::from(reference) - 1]));
        elements.push((VALUES, reference, b"\x2a"));
    }
    let path = folder.holding("roads.hdf", &file_of(&elements));
    let start = Instant::now();
    assert_eq!(granted(&["values", text(&path), "road 1"]), "n\n42\n");
    assert!(refused(&["values", text(&path), "road 0"]).contains("ABSENT"));
    assert!(start.elapsed() < Duration::from_secs(30));

    let head = byte_named(b"same");
    let heads: Vec<(u16, u16, &[u8])> = (1..=4096).rev().map(|reference| (HEAD, reference, &head[..])).collect();
    let path = folder.holding("same.hdf", &file_of(&heads));
    assert!(misused(&["values", text(&path), "same"]).ends_with(", 99, 100 and 3996 more\n"));
}

/// Of two columns of 5,000,000 records one is kept, and the other is read value by value.
#[test]
fn values_of_columns_that_are_too_long_are_printed_alike() {
    const RECORDS: u32 = 5_000_000;
    let folder = Folder::new("long columns");
    let bytes: Vec<u8> = (0..2 * RECORDS).map(|number| (number % 251) as u8).collect();
    let head = head(b"long", RECORDS, &[(b"kept", 21, 1, 1), (b"read", 21, 1, 1)]);
    let path = folder.holding("long.hdf", &file_of(&[(HEAD, 1, &head), (VALUES, 1, &bytes)]));
    let mut child = program().args(["values", text(&path), "1"]).stdout(Stdio::piped()).spawn().unwrap();
    let lines = BufReader::new(child.stdout.take().unwrap()).lines();
    let printed: Vec<String> = lines.take(1001).map(Result::unwrap).collect();
    assert_eq!(printed[0], "kept\tread");
    for (line, numbers) in printed[1..].iter().zip(bytes.chunks_exact(2)) {
        assert_eq!(*line, format!("{}\t{}", numbers[0], numbers[1]));
    }
    assert!(child.wait().unwrap().success());
}

#[test]
fn standard_input_has_values() {
    let path = file("mixed.hdf");
    for words in [&["values", "-", "roads"][..], &["values", "--json", "-", "11"]] {
        let output = program().args(words).stdin(File::open(&path).unwrap()).output().unwrap();
        let on_file: Vec<&str> = words.iter().map(|word| if *word == "-" { &path } else { *word }).collect();
        assert_eq!(String::from_utf8(output.stdout).unwrap(), granted(&on_file));
    }
}

/// libhdf4 names the values of a Vdata before it stores them, and never stores those of one without records.
#[test]
fn a_vdata_without_records_has_no_values() {
    let path = file("vdata_empty.hdf");
    for word in ["2", "none"] {
        assert_eq!(granted(&["values", &path, word]), "value\n");
    }
    let json = Json::read(&granted(&["values", "--json", &path, "2"]));
    assert_eq!((json["name"].text(), json["fields"].items().len(), json["records"].items().len()), ("none", 1, 0));
    // The SD interface writes such a one for each array, without a name.
    let path = file("sds_ranks.hdf");
    for reference in ["30", "33", "36", "39"] {
        assert_eq!(granted(&["values", &path, reference]), "SDS variable\n");
    }
    let message = misused(&["values", &path, ""]);
    assert!(message.ends_with("several Vdatas are named \"\"; give a reference: 30, 33, 36, 39\n"), "{message}");
}

/// The Vdata of a real file whose values, 84 bytes in the second slot, or whose head, in the third, are not stored.
#[test]
fn a_vdata_with_records_that_are_not_stored_is_refused() {
    let folder = Folder::new("unstored");
    let path = folder.unstored_copy_of("vdata_interlaces.hdf", slot(1));
    let path = text(&path);
    let expected = "Vdata 2: NOT_STORED: the values of its 7 records are not stored yet (number 29, place 22)";
    for words in [["values", path, "2"], ["values", path, "by record"]] {
        assert_eq!(refused(&words), format!("hdf4: {path}: {expected}\n"));
    }
    assert_eq!(granted(&["values", path, "3"]), roads(0..7));

    let path = folder.unstored_copy_of("vdata_interlaces.hdf", slot(2));
    let path = text(&path);
    let expected = "NOT_STORED: the element is named in the directory and not stored yet (number 29, place 34)";
    assert_eq!(refused(&["values", path, "2"]), format!("hdf4: {path}: Vdata 2: {expected}\n"));
    assert!(refused(&["values", path, "by record"]).contains("there is no Vdata named \"by record\", but 1 cannot be read"));
}

/// A copy of a real file in which the values of a Vdata, in its second slot, are one byte short. Its path as a word.
fn shortened(folder: &Folder) -> String {
    let path = folder.copy_of("vdata_interlaces.hdf");
    let mut image = fs::read(&path).unwrap();
    image[33] -= 1;
    fs::write(&path, image).unwrap();
    text(&path).to_string()
}

/// Values in linked blocks are refused with the command that gives their bytes; stored plainly, they are printed.
#[test]
fn values_in_linked_blocks_are_got_at() {
    let folder = Folder::new("linked");
    let path = folder.copy_of("vdata_appended.hdf");
    let path = text(&path);
    let rule = "STORAGE: the element is stored in a way that is not read here (number 12, place 22)";
    let way = "the values are in linked blocks, and hdf4 read FILE 1963 2 gives their bytes";
    assert_eq!(refused(&["values", path, "growing"]), format!("hdf4: {path}: Vdata 2: {rule}; {way}\n"));
    let values = folder.word("values");
    granted(&["read", path, "1963", "2", &values]);
    granted(&["replace", path, "1963", "2", &values]);
    assert_eq!(granted(&["values", path, "growing"]), roads((0..6).chain(0..9)));
}

#[test]
fn refusals_name_their_rule_and_print_nothing() {
    let folder = Folder::new("refusals");
    let path = file("vgroups.hdf");
    let shortened = shortened(&folder);
    for json in [&[][..], &["--json"]] {
        let refused = |path: &str, word: &str| refused(&[&["values", path, word][..], json].concat());
        assert!(refused(&path, "2").contains("Vdata 2: ABSENT"));
        assert!(refused(&file("vdata_appended.hdf"), "2").contains("STORAGE"));
        assert!(refused(&shortened, "2").contains("RECORD: a record breaks its layout (number 15, place 22)"));
        assert!(refused(&shortened, "by record").contains("Vdata 2: RECORD"));
        assert!(refused(&file("two_machine_types.hdf"), "x").contains("TWICE"));
    }
    for words in [&["values", &path][..], &["values", &path, "2", "3"], &["values", &path, "2", "--name", "x"]] {
        assert!(misused(words).contains("usage: hdf4 values"));
    }
    for number in ["65536", "0x10000", "99999999999999999999999"] {
        assert!(misused(&["values", &path, number]).contains("not a number from 0 to 65535"), "{number}");
    }
    for name in ["0x", "0xg", "-1", "+2", "2 ", "1e3", ""] {
        assert!(refused(&["values", &path, name]).contains("ABSENT: there is no Vdata named"), "{name}");
    }
}
