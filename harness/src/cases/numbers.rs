//! Values of each type in both byte orders. Their bytes, kinds and bits are written down by hand from the paper, and held against
//! the library and the reader alike. The library must read and pack the types of their heads as they are written here.

use super::pieces::{file, hex, vdata_head};
use super::records::same;
use crate::compare::compare_records;
use crate::compare::packing::call_library;
use crate::compare::records::answer;
use crate::compare::vset::{column_read, value_at, value_read};
use crate::packing::Record;
use crate::random::Random;
use crate::reader;
use crate::tally::Tally;
use crate::vset::{read_column, read_value, Tail, Vdata, DATA, HEAD};
use hdf4_sys::{self as library, ColumnAnswer, ValueAnswer};
use std::ops::Range;
use std::slice;

/// A type: its codes with the high byte first and with the low byte first; the size of its values and their kind, 1 for signed
/// numbers, 2 for unsigned ones, 3 and 4 for floats; and some of these values.
struct Type {
    codes: [u16; 2],
    size: u16,
    kind: u64,
    values: &'static [Known],
}

/// A value: its bytes with the high one first and with the low one first, and its bits.
type Known = ([&'static str; 2], u64);

/// All types, each of another size than the one before.
const TYPES: [Type; 10] = [
    Type { codes: [3, 16387], size: 1, kind: 2, values: &UNSIGNED_8 },
    Type { codes: [24, 16408], size: 4, kind: 1, values: &SIGNED_32 },
    Type { codes: [4, 16388], size: 1, kind: 2, values: &UNSIGNED_8 },
    Type { codes: [6, 16390], size: 8, kind: 4, values: &FLOATS_64 },
    Type { codes: [20, 16404], size: 1, kind: 1, values: &SIGNED_8 },
    Type { codes: [22, 16406], size: 2, kind: 1, values: &SIGNED_16 },
    Type { codes: [5, 16389], size: 4, kind: 3, values: &FLOATS_32 },
    Type { codes: [21, 16405], size: 1, kind: 2, values: &UNSIGNED_8 },
    Type { codes: [25, 16409], size: 4, kind: 2, values: &UNSIGNED_32 },
    Type { codes: [23, 16407], size: 2, kind: 2, values: &UNSIGNED_16 },
];

/// A number of one byte is the same in both orders.
const UNSIGNED_8: [Known; 6] = [
    (["00", "00"], 0),
    (["01", "01"], 1),
    (["7f", "7f"], 127),
    (["80", "80"], 128),
    (["fe", "fe"], 254),
    (["ff", "ff"], 255),
];

/// Bits above a negative number are ones: 0, 1, the greatest, the least, -2, -1.
const SIGNED_8: [Known; 6] = [
    (["00", "00"], 0),
    (["01", "01"], 1),
    (["7f", "7f"], 127),
    (["80", "80"], 0xffff_ffff_ffff_ff80),
    (["fe", "fe"], 0xffff_ffff_ffff_fffe),
    (["ff", "ff"], 0xffff_ffff_ffff_ffff),
];

const UNSIGNED_16: [Known; 8] = [
    (["0000", "0000"], 0),
    (["0001", "0100"], 1),
    (["7fff", "ff7f"], 32767),
    (["8000", "0080"], 32768),
    (["ffff", "ffff"], 65535),
    (["0102", "0201"], 258),
    (["00ff", "ff00"], 255),
    (["fe01", "01fe"], 65025),
];

/// 0, 1, the greatest, the least, -1, and others; the last one is -511.
const SIGNED_16: [Known; 8] = [
    (["0000", "0000"], 0),
    (["0001", "0100"], 1),
    (["7fff", "ff7f"], 32767),
    (["8000", "0080"], 0xffff_ffff_ffff_8000),
    (["ffff", "ffff"], 0xffff_ffff_ffff_ffff),
    (["0102", "0201"], 258),
    (["00ff", "ff00"], 255),
    (["fe01", "01fe"], 0xffff_ffff_ffff_fe01),
];

const UNSIGNED_32: [Known; 8] = [
    (["00000000", "00000000"], 0),
    (["00000001", "01000000"], 1),
    (["7fffffff", "ffffff7f"], 2_147_483_647),
    (["80000000", "00000080"], 2_147_483_648),
    (["ffffffff", "ffffffff"], 4_294_967_295),
    (["01020304", "04030201"], 16_909_060),
    (["0000ff80", "80ff0000"], 65408),
    (["fe010203", "030201fe"], 0xfe01_0203),
];

/// 0, 1, the greatest, the least, -1, and others; the last one is negative.
const SIGNED_32: [Known; 8] = [
    (["00000000", "00000000"], 0),
    (["00000001", "01000000"], 1),
    (["7fffffff", "ffffff7f"], 2_147_483_647),
    (["80000000", "00000080"], 0xffff_ffff_8000_0000),
    (["ffffffff", "ffffffff"], 0xffff_ffff_ffff_ffff),
    (["01020304", "04030201"], 16_909_060),
    (["0000ff80", "80ff0000"], 65408),
    (["fe010203", "030201fe"], 0xffff_ffff_fe01_0203),
];

/// Zeros; 1.5 and -2.25; infinities; the least above 0 and another; quiet NaNs, then signalling ones.
const FLOATS_32: [Known; 12] = [
    (["00000000", "00000000"], 0),
    (["80000000", "00000080"], 0x8000_0000),
    (["3fc00000", "0000c03f"], 0x3fc0_0000),
    (["c0100000", "000010c0"], 0xc010_0000),
    (["7f800000", "0000807f"], 0x7f80_0000),
    (["ff800000", "000080ff"], 0xff80_0000),
    (["00000001", "01000000"], 1),
    (["01020304", "04030201"], 0x0102_0304),
    (["7fc12345", "4523c17f"], 0x7fc1_2345),
    (["ffc00000", "0000c0ff"], 0xffc0_0000),
    (["7f800001", "0100807f"], 0x7f80_0001),
    (["ffa1b2c3", "c3b2a1ff"], 0xffa1_b2c3),
];

/// The same of 64 bits.
const FLOATS_64: [Known; 14] = [
    (["0000000000000000", "0000000000000000"], 0),
    (["8000000000000000", "0000000000000080"], 0x8000_0000_0000_0000),
    (["3ff8000000000000", "000000000000f83f"], 0x3ff8_0000_0000_0000),
    (["c002000000000000", "00000000000002c0"], 0xc002_0000_0000_0000),
    (["7ff0000000000000", "000000000000f07f"], 0x7ff0_0000_0000_0000),
    (["fff0000000000000", "000000000000f0ff"], 0xfff0_0000_0000_0000),
    (["0000000000000001", "0100000000000000"], 1),
    (["800fffffffffffff", "ffffffffffff0f80"], 0x800f_ffff_ffff_ffff),
    (["0102030405060708", "0807060504030201"], 0x0102_0304_0506_0708),
    (["7ff8deadbeefcafe", "fecaefbeaddef87f"], 0x7ff8_dead_beef_cafe),
    (["fff8000000000000", "000000000000f8ff"], 0xfff8_0000_0000_0000),
    (["7ff0000000000001", "010000000000f07f"], 0x7ff0_0000_0000_0001),
    (["fff0000000000001", "010000000000f0ff"], 0xfff0_0000_0000_0001),
    (["fff123456789abcd", "cdab89674523f1ff"], 0xfff1_2345_6789_abcd),
];

/// A Vdata, by record where its interlace is 0, by field where it is 1.
struct Case {
    interlace: u16,
    records: usize,
    columns: Vec<Column>,
}

/// A field: type, size, offset and order; the kind of its values; bytes and bits of these, record after record.
struct Column {
    field: [u16; 4],
    kind: u64,
    values: Vec<(Vec<u8>, u64)>,
}

/// Holds all values against library and reader; answers how many there are. Each type has Vdatas of its own, then all share some.
/// None of this counts as reached: generated files must reach it too.
pub fn check(random: &mut Random) -> Result<usize, String> {
    let (mut count, mut tally) = (0, Tally::default());
    for interlace in [0, 1] {
        let own = TYPES.iter().map(|known| (slice::from_ref(known), [2, 2], known.values.len() / 2));
        for (types, orders, records) in own.chain([(&TYPES[..], [1, 3], 2)]) {
            let case = Case { interlace, records, columns: columns(types, orders, records) };
            let image = case.image();
            case.check_head(&image)?;
            count += case.check_values(&image)?;
            compare_records(&image, random, &mut tally).map_err(|difference| difference.to_string())?;
        }
    }
    Ok(count)
}

/// For each type a field with the high byte first, and right behind it one with the low byte first, of these two orders. Each has
/// as many of the last values as it needs.
fn columns(types: &[Type], orders: [u16; 2], records: usize) -> Vec<Column> {
    let (mut columns, mut offset) = (Vec::new(), 0);
    for Type { codes, size, kind, values } in types {
        for (index, order) in orders.into_iter().enumerate() {
            let count = records * usize::from(order);
            let values =
                values[values.len() - count..].iter().map(|(bytes, bits)| (hex(bytes[index]), *bits)).collect();
            columns.push(Column { field: [codes[index], order * size, offset, order], kind: *kind, values });
            offset += order * size;
        }
    }
    columns
}

impl Case {
    fn image(&self) -> Vec<u8> {
        file(&[(HEAD, 1, self.head()), (DATA, 1, self.data())]).bytes()
    }

    fn head(&self) -> Vec<u8> {
        let fields: Vec<[u16; 4]> = self.columns.iter().map(|column| column.field).collect();
        vdata_head(self.interlace, self.records as u32, self.record_size(), &fields)
    }

    fn record_size(&self) -> u16 {
        self.columns.iter().map(|column| column.field[1]).sum()
    }

    /// All fields of a record and then the next record, or all records of a field and then the next field.
    fn data(&self) -> Vec<u8> {
        match self.interlace {
            0 => (0..self.records).flat_map(|record| self.bytes_of(record..record + 1)).collect(),
            _ => self.bytes_of(0..self.records),
        }
    }

    /// The bytes of the first field in some records, then those of the next field.
    fn bytes_of(&self, records: Range<usize>) -> Vec<u8> {
        self.columns.iter().flat_map(|column| column.bytes_of(records.clone())).collect()
    }

    /// The head as the library reads it, and its bytes as the library packs it.
    fn check_head(&self, image: &[u8]) -> Result<(), String> {
        let count = self.columns.len();
        let numbers: Vec<u16> = self.columns.iter().flat_map(|column| column.field).collect();
        let (mut fields, mut names) = (vec![0; 4 * count], vec![0; 2 * count]);
        let a = library::read_vdata(image, 1, &mut fields, &mut names);
        same("head", [a.number, a.place, a.fields], [0, 0, count as u64])?;
        same("fields", [&fields], [&numbers])?;
        let head = self.head();
        let mut packed = vec![0; head.len()];
        let a = call_library(&self.record(numbers), &mut packed);
        same("packing of a head", [a.number, a.place, a.length], [0, 0, head.len() as u64])?;
        same("packed head", [packed], [head])
    }

    fn record(&self, fields: Vec<u16>) -> Record {
        let tail =
            Tail { name: Vec::new(), class: Vec::new(), extension_tag: 0, extension_ref: 0, version: 3, more: 0 };
        Record::Vdata(Vdata {
            interlace: self.interlace,
            records: self.records as u32,
            record_size: self.record_size(),
            fields,
            name_lengths: vec![0; self.columns.len()],
            names: Vec::new(),
            tail,
        })
    }

    /// Each value, and each column of them, as library and reader read it; answers how many values there are.
    fn check_values(&self, image: &[u8]) -> Result<usize, String> {
        let mut count = 0;
        for (field, column) in (0..).zip(&self.columns) {
            let order = u64::from(column.field[3]);
            for (at, (_, bits)) in (0..).zip(&column.values) {
                let paper = ValueAnswer { kind: column.kind, bits: *bits, ..ValueAnswer::default() };
                let checked = check_value(image, [at / order, field, at % order], paper);
                checked.map_err(|answers| format!("value {at} of type {}\n{answers}", column.field[0]))?;
                count += 1;
            }
            for component in 0..order {
                let checked = check_column(image, [field, component], column);
                checked.map_err(|answers| format!("column {component} of type {}\n{answers}", column.field[0]))?;
            }
        }
        Ok(count)
    }
}

/// The value must be what the paper says, by the library and by the reader; else all three answers.
fn check_value(image: &[u8], indices: [u64; 3], paper: ValueAnswer) -> Result<(), String> {
    let library = value_at(image, 1, indices);
    let reader = answer(&read_value(image, &reader::open(image), 1, indices), value_read);
    if library != paper || reader != paper {
        return Err(format!("paper   {paper:?}\nlibrary {library:?}\nreader  {reader:?}"));
    }
    Ok(())
}

/// So must a component of a field in every record, which leaves an entry that it does not need.
fn check_column(image: &[u8], indices: [u64; 2], column: &Column) -> Result<(), String> {
    let [field, component] = indices;
    let own = column.values.iter().skip(component as usize).step_by(column.field[3].into());
    let bits: Vec<u64> = own.map(|(_, bits)| *bits).collect();
    let records = bits.len() as u64;
    let paper = ColumnAnswer { kind: column.kind, records, ..ColumnAnswer::default() };
    let mut out = vec![77; bits.len() + 1];
    let library = library::read_column(image, 1, field, component, &mut out);
    let reading = read_column(image, &reader::open(image), 1, indices, bits.len());
    let reader = answer(&reading, column_read);
    if library != paper || reader != paper {
        return Err(format!("paper   {paper:?}\nlibrary {library:?}\nreader  {reader:?}"));
    }
    same("column by the library", [&out], [&[&bits[..], &[77]].concat()])?;
    same("column by the reader", [reading.ok().map(|(column, _)| column.bits)], [Some(bits)])
}

impl Column {
    /// The bytes of the field in some records.
    fn bytes_of(&self, records: Range<usize>) -> Vec<u8> {
        let order = usize::from(self.field[3]);
        let values = &self.values[records.start * order..records.end * order];
        values.iter().flat_map(|(bytes, _)| bytes.clone()).collect()
    }
}
