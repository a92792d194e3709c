//! Runs the built program on every array and image of the real files: what it prints is what libhdf4 reads (grids.txt beside them),
//! whichever way one is asked for.

mod common;

use common::files::{array, array_file, file_of, image, shorts, slot};
use common::json::Json;
use common::{ended, file, granted, misused, refused, text, Folder, FILES};
use std::fs;

/// An array or an image, as libhdf4 reads it.
struct Known {
    file: String,
    kind: String,
    /// Tag and reference of what libhdf4 names it by, with a slash between them.
    pair: String,
    /// The code of its type, with 16384 added where the low byte stands first.
    code: u16,
    storage: String,
    /// An image has a third, how many components there are.
    sizes: Vec<usize>,
    name: String,
    /// None where libhdf4 reads none.
    numbers: Option<Vec<String>>,
    /// Whether libhdf4 was asked for them, and failed.
    is_unread: bool,
}

/// An image whose numbers stand plane by plane. Of its record libhdf4's GR interface leaves the interlace out, and gives them as they
/// stand; DF24getimage, which wrote it, gives them by pixel.
const BY_PLANE: (&str, &str) = ("raster_24.hdf", "306/2");

/// All of them, in the order of the files and of libhdf4's index.
fn known() -> Vec<Known> {
    let mut all: Vec<Known> = Vec::new();
    let lines = fs::read_to_string(format!("{FILES}/grids.txt")).unwrap();
    for line in lines.lines().filter(|line| !line.starts_with('#')) {
        let (file, rest) = line.split_once(' ').unwrap();
        match rest.split_once(' ').unwrap_or((rest, "")) {
            ("numbers", values) => all.last_mut().unwrap().numbers = Some(values.split(' ').map(shown).collect()),
            ("unread", _) => all.last_mut().unwrap().is_unread = true,
            (kind, rest) => {
                let [pair, code, storage, sizes, name] = rest.splitn(5, ' ').collect::<Vec<_>>()[..] else { panic!("{line}") };
                all.push(Known {
                    file: file.to_string(),
                    kind: kind.to_string(),
                    pair: pair.to_string(),
                    code: code.parse().unwrap(),
                    storage: storage.to_string(),
                    sizes: sizes.split('x').map(|size| size.parse().unwrap()).collect(),
                    name: name.trim_matches('"').to_string(),
                    numbers: None,
                    is_unread: false,
                });
            }
        }
    }
    assert!(all.len() > 60, "{}", all.len());
    all
}

/// How the program prints a number of those lines: a letter for its kind, and the number or the bits of a float.
fn shown(value: &str) -> String {
    let (kind, digits) = value.split_at(1);
    match kind {
        "f" => format!("{:?}", f32::from_bits(u32::from_str_radix(digits, 16).unwrap())),
        "d" => format!("{:?}", f64::from_bits(u64::from_str_radix(digits, 16).unwrap())),
        _ => digits.to_string(),
    }
}

impl Known {
    fn path(&self) -> String {
        file(&self.file)
    }

    fn is_image(&self) -> bool {
        self.kind == "image"
    }

    /// Sizes and components.
    fn shape(&self) -> (&[usize], usize) {
        match self.sizes.split_last() {
            Some((components, sizes)) if self.is_image() => (sizes, *components),
            _ => (&self.sizes, 1),
        }
    }

    /// The lines that the program prints.
    fn lines(&self) -> Option<String> {
        let (sizes, components) = self.shape();
        let mut numbers = self.numbers.clone()?;
        assert_eq!(numbers.len(), sizes.iter().product::<usize>() * components, "{}", self.pair);
        if (&*self.file, &*self.pair) == BY_PLANE {
            let points = numbers.len() / components;
            numbers = (0..numbers.len()).map(|index| numbers[index % components * points + index / components].clone()).collect();
        }
        let (columns, planes) = (sizes[sizes.len() - 1], sizes.len() > 2);
        let points: Vec<String> = numbers.chunks(components).map(|point| point.join(",")).collect();
        let rows = points.chunks(columns).map(|row| row.join(" ") + "\n").enumerate();
        let blank = |row: usize| planes && row > 0 && row % sizes[sizes.len() - 2] == 0;
        Some(rows.map(|(row, line)| if blank(row) { format!("\n{line}") } else { line }).collect())
    }

    fn is_readable(&self) -> bool {
        ["plain", "linked"].contains(&&*self.storage)
    }
}

#[test]
fn every_number_of_every_grid_is_the_one_that_libhdf4_reads() {
    let mut compared = 0;
    for grid in known() {
        let words = ["grid", &grid.path(), &grid.pair];
        match grid.lines().filter(|_| grid.is_readable()) {
            Some(lines) => {
                assert_eq!(granted(&words), lines, "{words:?}");
                let csv = lines.replace("\n\n", "\n").replace(' ', ",");
                assert_eq!(granted(&[&words[..], &["--csv"]].concat()), csv, "{words:?}");
                compared += grid.numbers.unwrap().len();
            }
            // The blocks of these were never written. libhdf4 fails on them, and the bytes that it gives are zeros.
            None if grid.storage == "linked" => {
                assert_eq!(granted(&words).split_whitespace().count(), grid.sizes.iter().product::<usize>(), "{words:?}");
            }
            // One that was not written whole: libhdf4 fails on it.
            None if grid.storage == "plain" => {
                assert!(grid.is_unread && refused(&words).contains("RECORD: 702/20 has 16 bytes, and its dimensions ask for 48"));
                assert_eq!(granted(&[&words[..], &["--rows", "2"]].concat()).lines().count(), 2);
            }
            None => {
                let rule = match &*grid.storage {
                    "absent" => "ABSENT: the array of group 720/2 has dimensions, and no data are stored",
                    "unstored" => "NOT_STORED: ",
                    _ => "STORAGE: ",
                };
                assert!(refused(&words).contains(rule), "{words:?}");
            }
        }
    }
    assert!(compared > 2400, "{compared}");
}

#[test]
fn the_arrays_that_grew_are_printed_whole() {
    let path = file("sds_reopened.hdf");
    for (reference, rows, numbers) in [("2", 124, 620), ("3", 93, 465)] {
        let pair = format!("720/{reference}");
        let printed = granted(&["grid", &path, &pair]);
        assert_eq!((printed.lines().count(), printed.split_whitespace().count()), (rows, numbers));
        // By its reference it has the rows of its record, or those that are asked for.
        let recorded = granted(&["grid", &path, reference]);
        assert!(printed.starts_with(&recorded) && recorded.len() < printed.len());
        for word in [reference, &pair] {
            assert_eq!(granted(&["grid", "--rows", &rows.to_string(), &path, word]), printed);
            let few = granted(&["grid", "--rows", "2", &path, word]);
            assert_eq!(few, printed.split_inclusive('\n').take(2).collect::<String>());
            let message = refused(&["grid", "--rows", "125", &path, word]);
            let [has, asks] = [numbers, 125 * numbers / rows].map(|count| count * if reference == "2" { 2 } else { 1 });
            assert!(
                message.contains(&format!("has {has} bytes, and --rows 125 asks for {asks} (number 15, place ")),
                "{message}"
            );
            assert!(message.ends_with(&format!("); the data are enough for {rows}\n")), "{message}");
        }
    }
}

/// The entry of a list of grids that a pair means.
fn listed<'a>(grids: &'a Json, pair: &str) -> &'a Json {
    let wanted: Vec<u16> = pair.split('/').map(|number| number.parse().unwrap()).collect();
    let is_wanted = |pair: &Json| [&pair["tag"], &pair["ref"]].map(Json::number::<u16>) == wanted[..];
    let has = |grid: &&Json| {
        let by_vgroup = wanted[0] == 1965 && grid["vgroup"] == Json::Number(wanted[1].to_string());
        by_vgroup || grid["groups"].items().iter().any(is_wanted) || (grid["data"] != Json::Null && is_wanted(&grid["data"]))
    };
    grids["grids"].items().iter().find(has).unwrap_or_else(|| panic!("{pair}: {grids:?}"))
}

/// The arrays and images of one file after the other.
fn by_file(known: &[Known]) -> impl Iterator<Item = &[Known]> {
    known.chunk_by(|one, other| one.file == other.file)
}

#[test]
fn every_grid_is_listed_as_libhdf4_has_it() {
    for grids in by_file(&known()) {
        let path = grids[0].path();
        let json = Json::read(&granted(&["grids", "--json", &path]));
        let lines = granted(&["grids", &path]);
        assert_eq!((json["grids"].items().len(), lines.lines().count()), (grids.len(), grids.len()), "{path}");
        for grid in grids {
            let listed = listed(&json, &grid.pair);
            let (sizes, components) = grid.shape();
            assert_eq!((listed["kind"].text(), listed["name"].text()), (&*grid.kind, &*grid.name), "{path} {}", grid.pair);
            assert_eq!(listed["sizes"].items().iter().map(Json::number).collect::<Vec<usize>>(), sizes, "{path} {}", grid.pair);
            assert_eq!(listed["components"].number::<usize>(), components);
            let order = if grid.code >= 16384 { "little" } else { "big" };
            assert_eq!((listed["type"].number::<u16>(), listed["byte_order"].text()), (grid.code % 16384, order), "{path}");
            let storage = if ["absent", "unstored"].contains(&&*grid.storage) { "not stored" } else { &grid.storage };
            assert_eq!(listed["storage"].text(), storage, "{path} {}", grid.pair);
            let sizes: Vec<String> = sizes.iter().map(usize::to_string).collect();
            let line = lines.lines().find(|line| line.contains(&format!(" {} ", text_of(&grid.pair)))).unwrap();
            assert!(line.starts_with(&format!("{} name \"{}\" ", grid.kind, grid.name)), "{line}");
            assert!(line.contains(&format!(" sizes {} ", sizes.join(" x "))) && line.contains(&format!(" {storage}")), "{line}");
        }
    }
    for name in ["elements.hdf", "vgroups.hdf", "empty.hdf"] {
        assert_eq!(granted(&["grids", &file(name)]), "");
        assert_eq!(granted(&["grids", "--json", &file(name)]), "{\"grids\":[]}\n");
    }
}

/// How a line has what libhdf4 names an array or image by.
fn text_of(pair: &str) -> String {
    match pair.split_once('/') {
        Some(("1965", reference)) => format!("Vgroup {reference}"),
        Some(("302", _)) => format!("data {pair}"),
        _ => format!("group {pair}"),
    }
}

/// By its name it is the same, or a line on standard error says that another was taken.
#[test]
fn no_name_gives_another_grid_without_a_word() {
    let mut told = 0;
    for grids in by_file(&known()) {
        for grid in grids.iter().filter(|grid| grid.is_readable()) {
            let Some(lines) = grid.lines() else { continue };
            let (printed, message) = ended(0, &["grid", &grid.path(), "--name", &grid.name]);
            let is_told = message.contains(" was taken") && message.contains(&grid.path());
            assert!(printed == lines || is_told, "{} {}: {message}", grid.file, grid.name);
            told += usize::from(is_told);
        }
    }
    assert!(told > 5, "{told}");
}

#[test]
fn where_two_could_be_meant_a_word_tells_them_apart() {
    let path = file("gr_24_bit.hdf");
    let [pixel, line, plane] = ["302/1", "302/2", "302/3"].map(|pair| granted(&["grid", &path, pair]));
    // A reference by itself is not that of a Vgroup.
    assert_eq!(ended(0, &["grid", &path, "2"]), (line.clone(), String::new()));
    assert!(refused(&["grid", &path, "4"]).contains("ABSENT: reference 4 gives no array and no image with its dimensions"));
    for (word, lines) in [("1965/2", &pixel), ("VG/3", &line), ("306/2", &line), ("RI8/3", &plane)] {
        assert_eq!(ended(0, &["grid", &path, word]), (lines.clone(), String::new()), "{word}");
    }
    assert!(refused(&["grid", &path, "300/2"]).contains("ABSENT: 300/2 gives no array and no image with its dimensions"));
    assert_eq!(ended(0, &["grid", &path, "--name", "by plane"]), (plane, String::new()));
    assert!(refused(&["grid", "--array", &path, "--name", "by line"]).contains("ABSENT: there is no array named \"by line\""));
    assert!(refused(&["grid", &path, "--name", "x"]).contains("ABSENT: there is no array and no image named \"x\" (number 11"));
    // A word alone is no name.
    assert!(misused(&["grid", &path, "by plane"]).contains("by plane: not a number from 0 to 65535"));

    let path = file("sds_little_endian.hdf");
    let first = granted(&["grid", &path, "720/2"]);
    let (printed, message) = ended(0, &["grid", &path, "--name", "low byte first"]);
    let others = "5 grids are named \"low byte first\", and 720/2 was taken; others: 720/4, 720/6, 720/8, 720/10";
    assert_eq!((printed, message), (first, format!("hdf4: {path}: {others}\n")));
}

/// A number is a reference, also where it is the name of another; what a Vgroup alone names takes a tag or a name.
#[test]
fn a_name_that_is_a_number_takes_an_option() {
    let folder = Folder::new("number");
    let vgroup = |name: &[u8], members: &[u16]| {
        let (tags, references): (Vec<u16>, Vec<u16>) = members.chunks(2).map(|pair| (pair[0], pair[1])).unzip();
        let class = b"Var0.0";
        let text = |text: &[u8]| [&shorts(&[text.len() as u16])[..], text].concat();
        [shorts(&[tags.len() as u16]), shorts(&tags), shorts(&references), text(name), text(class), shorts(&[0, 0, 3, 0])]
            .concat()
    };
    let (one, two) = (vgroup(b"3", &[702, 2, 701, 2]), vgroup(b"wide", &[702, 3, 701, 2]));
    let dimensions = array(&[1]);
    let path = folder.holding(
        "named.hdf",
        &file_of(&[
            (106, 1, b"\x01\x15\x08\x01"),
            (701, 2, &dimensions),
            (702, 2, b"\x07"),
            (702, 3, b"\x08"),
            (1965, 7, &one),
            (1965, 8, &two),
        ]),
    );
    let path = text(&path);
    assert_eq!(ended(0, &["grid", path, "2"]), ("7\n".to_string(), String::new()));
    assert_eq!(ended(0, &["grid", "--name", "3", path]), ("7\n".to_string(), String::new()));
    assert_eq!(ended(0, &["grid", "--name", "3", path, "-"]), ("7\n".to_string(), String::new()));
    for reference in ["3", "7", "8"] {
        assert!(refused(&["grid", path, reference]).contains(&format!("ABSENT: reference {reference} gives no array")));
    }
    for words in [&["702/3"][..], &["1965/8"], &["VG/8"], &["--name", "wide"]] {
        assert_eq!(ended(0, &[&["grid", path], words].concat()), ("8\n".to_string(), String::new()));
    }
}

#[test]
fn what_is_refused_of_one_grid_is_said_behind_the_list() {
    let folder = Folder::new("refused");
    let (sound, broken) = (array(&[2]), image(1, 2, 1, 9));
    let elements: [(u16, u16, &[u8]); 5] =
        [(106, 1, b"\x01\x15\x08\x01"), (701, 2, &sound), (702, 2, b"\x01\x02"), (300, 3, &broken), (302, 3, b"\0")];
    let path = folder.holding("broken.hdf", &file_of(&elements));
    let path = text(&path);
    let listed = "array data 702/2 sizes 2 type uint8 plain\nimage data 302/3 plain\n";
    let place = slot(3);
    let told = format!("hdf4: {path}: 300/3: RECORD: a record breaks its layout (number 15, place {place})\n");
    assert_eq!(ended(1, &["grids", path]), (listed.to_string(), told));
    let (json, _) = ended(1, &["grids", "--json", path]);
    let json = Json::read(&json);
    assert_eq!((&json["grids"].items()[1]["type"], json["grids"].items()[1]["sizes"].items().len()), (&Json::Null, 0));
    assert!(refused(&["grids", &file("two_machine_types.hdf")]).contains("TWICE"));

    let path = folder.holding("short.hdf", &array_file(b"\x01\x16\x10\x01", &[3, 2], &[0; 11]));
    let listed = "array data 702/2 sizes 3 x 2 type int16 plain of 11 bytes where the sizes ask for 12\n";
    assert_eq!(granted(&["grids", text(&path)]), listed);
    assert!(granted(&["grids", "--json", text(&path)]).contains("\"storage\":\"plain\",\"misfit\":11}"));
    let path = folder.holding("long.hdf", &array_file(b"\x01\x15\x08\x01", &[2, 2], &[0; 5]));
    let listed = "array data 702/2 sizes 2 x 2 type uint8 plain of 5 bytes where the sizes ask for 4\n";
    assert_eq!(granted(&["grids", text(&path)]), listed);
}
