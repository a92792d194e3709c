//! The command that prints the values of a Vdata.

use crate::fault::Fault;
use crate::input::{self, Input};
use crate::json::Json;
use crate::miscounted;
use crate::print::Print;
use crate::progress::Progress;
use crate::sorted::Sorted;
use crate::tags::{HEAD, VALUES};
use crate::text::{quoted, refusal};
use crate::words::{number, Words};
use hdf4::{base_type, ByteOrder, Error, Field, Kind, Rule, Value, Vdata};
use std::borrow::Cow;
use std::mem::size_of;
use std::os::unix::ffi::OsStrExt;

/// Base types of characters.
const CHARACTERS: [u16; 2] = [3, 4];

/// How many references a message names.
const MOST_NAMED: usize = 100;

/// How many bytes of columns are kept at most. Values past that are read one by one.
const MOST_KEPT: usize = 1 << 26;

/// The values of a Vdata of a file, which is given by its reference or its name.
pub fn values(words: &Words, print: &mut Print) -> Result<(), Fault> {
    let (path, reference, name) = match (&words.all()[..], words.value("--name")) {
        (&[path], Some(name)) => (path, None, name),
        (&[path, word], None) if is_number(word.as_bytes()) => (path, Some(number(word)?), word),
        (&[path, word], None) => (path, None, word),
        _ => return Err(miscounted("values")),
    };
    let file = input::read(path)?;
    let reference = reference.map_or_else(|| find(&file, name.as_bytes()), Ok)?;
    let table = Table::of(&file, reference)?;
    if words.has("--json") {
        return table.json(Json::new(print));
    }
    table.lines(print)
}

/// Whether a word is a reference: decimal digits, or others behind 0x.
fn is_number(word: &[u8]) -> bool {
    match word.strip_prefix(b"0x").unwrap_or(word) {
        [] => false,
        digits if digits.len() < word.len() => digits.iter().all(u8::is_ascii_hexdigit),
        digits => digits.iter().all(u8::is_ascii_digit),
    }
}

/// The reference of the one Vdata that has a name.
fn find(file: &Input, name: &[u8]) -> Result<u16, Fault> {
    let heads = Sorted::of(file, |tag, _| tag == HEAD)?;
    let (mut found, mut unread) = (Vec::new(), 0);
    for reference in heads.references(HEAD) {
        match hdf4::read_vdata(&heads.image, reference) {
            Ok(vdata) if vdata.name == name => found.push(reference),
            Ok(_) => {}
            Err(_) => unread += 1,
        }
    }
    let name = quoted(name);
    match (&found[..], unread) {
        (&[reference], _) => Ok(reference),
        (&[], 0) => Err(file.refused(refusal(Rule::Absent, format_args!("there is no Vdata named {name}"), 0))),
        (&[], _) => {
            let why = format_args!("there is no Vdata named {name}, but {unread} cannot be read");
            Err(file.refused(refusal(Rule::Absent, why, 0)))
        }
        (several, _) => {
            let references: Vec<String> = several.iter().take(MOST_NAMED).map(u16::to_string).collect();
            let more = several.len() - references.len();
            let more = if more > 0 { format!(" and {more} more") } else { String::new() };
            let why = format!("several Vdatas are named {name}; give a reference: {}{more}", references.join(", "));
            Err(Fault::Use(format!("{}: {why}", file.name)))
        }
    }
}

/// A Vdata whose values can be read.
struct Table<'a> {
    file: &'a Input,
    reference: u16,
    vdata: Vdata<'a>,
    /// The image that they are read from.
    image: Cow<'a, [u8]>,
    /// The first columns, as many as are kept: one a component of a field, in order.
    columns: Vec<Kept>,
    /// How many columns are those of the fields before each one.
    before: Vec<usize>,
}

/// A column that was read: the bits of each record's value.
struct Kept {
    kind: Kind,
    bits: Vec<u64>,
}

impl<'a> Table<'a> {
    fn of(file: &'a Input, reference: u16) -> Result<Table<'a>, Fault> {
        let refused = |e: Error| file.refused(format_args!("Vdata {reference}: {e}"));
        let vdata = hdf4::read_vdata(&file.bytes, reference).map_err(refused)?;
        let before = (0..vdata.fields.len()).map(|index| vdata.fields[..index].iter().map(order).sum()).collect();
        let mut table = Table { file, reference, vdata, image: Cow::Borrowed(&file.bytes), columns: Vec::new(), before };
        if table.records() > 0 {
            // The first value is refused if any is, and names the place in this file.
            table.value(0, 0, 0)?;
            // Each column is read by a call of its own, and each call opens the image.
            let alone = Sorted::of(file, |tag, other| other == reference && [HEAD, VALUES].contains(&tag))?;
            table.image = Cow::Owned(alone.image);
            table.keep_columns()?;
        }
        Ok(table)
    }

    /// Reads the columns in order, as long as there is memory for them.
    fn keep_columns(&mut self) -> Result<(), Fault> {
        let records = self.records();
        let most = MOST_KEPT / size_of::<u64>() / records;
        let fields = self.vdata.fields.iter().enumerate();
        let columns: Vec<_> =
            fields.flat_map(|(index, field)| (0..order(field)).map(move |component| (index, component))).collect();
        for (index, component) in columns.into_iter().take(most) {
            let mut bits = Vec::new();
            if input::reserve(&self.file.name, &mut bits, records).is_err() {
                break;
            }
            bits.resize(records, 0);
            let column = hdf4::read_column(&self.image, self.reference, index, component, &mut bits);
            let kind = column.map_err(|e| self.refused(e))?.kind;
            self.columns.push(Kept { kind, bits });
        }
        Ok(())
    }

    /// How many records have values: none, where they have no fields.
    fn records(&self) -> usize {
        if self.vdata.fields.is_empty() {
            0
        } else {
            self.vdata.records as usize
        }
    }

    fn value(&self, record: usize, index: usize, component: usize) -> Result<Value, Fault> {
        match self.columns.get(self.before[index] + component) {
            Some(column) => Ok(column.kind.value(column.bits[record])),
            None => hdf4::read_value(&self.image, self.reference, record, index, component).map_err(|e| self.refused(e)),
        }
    }

    /// Values that are refused. Where they are in linked blocks, it is said how to get at their bytes.
    fn refused(&self, e: Error) -> Fault {
        let Table { file, reference, vdata, .. } = self;
        let why = match e.rule {
            Rule::NotStored => {
                refusal(e.rule, format_args!("the values of its {} records are not stored yet", vdata.records), e.place)
            }
            Rule::Storage if hdf4::size(&file.bytes, VALUES, *reference).is_ok() => {
                format!("{e}; the values are in linked blocks, and hdf4 read FILE {VALUES} {reference} gives their bytes")
            }
            _ => e.to_string(),
        };
        file.refused(format_args!("Vdata {reference}: {why}"))
    }

    /// The values of one field in one record.
    fn cell<'b>(&'b self, record: usize, index: usize, field: &Field) -> impl Iterator<Item = Result<Value, Fault>> + 'b {
        (0..order(field)).map(move |component| self.value(record, index, component))
    }

    /// The characters of one field in one record.
    fn characters(&self, record: usize, index: usize, field: &Field) -> Result<Vec<u8>, Fault> {
        self.cell(record, index, field).map(|value| Ok(byte(value?))).collect()
    }

    /// The numbers of a field, or its text.
    fn text(&self, record: usize, index: usize, field: &Field, print: &mut Print) -> Result<(), Fault> {
        if is_text(field) {
            return print.text(format_args!("{}", quoted(&self.characters(record, index, field)?)));
        }
        for (component, value) in self.cell(record, index, field).enumerate() {
            let space = if component == 0 { "" } else { " " };
            print.text(format_args!("{space}{}", value?))?;
        }
        Ok(())
    }

    /// A number, an array of several, or a text.
    fn json_cell(&self, record: usize, index: usize, field: &Field, json: &mut Json) -> Result<(), Fault> {
        if is_text(field) {
            return json.text(&self.characters(record, index, field)?);
        }
        if field.order == 1 {
            return json_number(&self.value(record, index, 0)?, json);
        }
        json.open('[')?;
        self.cell(record, index, field).try_for_each(|value| json_number(&value?, json))?;
        json.close(']')
    }

    /// A line of field names, then a line for each record.
    fn lines(&self, print: &mut Print) -> Result<(), Fault> {
        let fields = &self.vdata.fields;
        let names: Vec<String> = fields.iter().map(|field| field.name.escape_ascii().to_string()).collect();
        print.text(format_args!("{}\n", names.join("\t")))?;
        let mut progress = Progress::of_printing("records", self.records());
        for record in 0..self.records() {
            progress.at(record);
            for (index, field) in fields.iter().enumerate() {
                print.bytes(if index == 0 { b"" } else { b"\t" })?;
                self.text(record, index, field, print)?;
            }
            print.bytes(b"\n")?;
        }
        Ok(())
    }

    fn json(&self, mut json: Json) -> Result<(), Fault> {
        let Vdata { name, class, interlace, fields, .. } = &self.vdata;
        json.open('{')?;
        json.entry("ref", self.reference)?;
        json.text_entry("name", name)?;
        json.text_entry("class", class)?;
        json.entry("interlace", interlace)?;
        json.key("fields")?;
        json.open('[')?;
        for field in fields {
            json.open('{')?;
            json.text_entry("name", field.name)?;
            json.entry("type", field.number_type)?;
            json.text_entry("byte_order", byte_order(field))?;
            json.entry("order", field.order)?;
            json.close('}')?;
        }
        json.close(']')?;
        json.key("records")?;
        json.open('[')?;
        let mut progress = Progress::of_printing("records", self.records());
        for record in 0..self.records() {
            progress.at(record);
            json.open('[')?;
            for (index, field) in fields.iter().enumerate() {
                self.json_cell(record, index, field, &mut json)?;
            }
            json.close(']')?;
        }
        json.close(']')?;
        json.close('}')?;
        json.end()
    }
}

/// How many components a field has.
fn order(field: &Field) -> usize {
    field.order.into()
}

fn is_text(field: &Field) -> bool {
    CHARACTERS.contains(&base_type(field.number_type))
}

/// How JSON tells the byte order of a field.
fn byte_order(field: &Field) -> &'static [u8] {
    match field.byte_order() {
        ByteOrder::BigEndian => b"big",
        ByteOrder::LittleEndian => b"little",
    }
}

/// A number; a string where JSON has no number for it.
fn json_number(value: &Value, json: &mut Json) -> Result<(), Fault> {
    let float = match *value {
        Value::Float32(float) => f64::from(float),
        Value::Float64(float) => float,
        Value::Signed(_) | Value::Unsigned(_) => 0.0,
    };
    match float {
        float if float.is_nan() => json.text(b"NaN"),
        f64::INFINITY => json.text(b"Infinity"),
        f64::NEG_INFINITY => json.text(b"-Infinity"),
        _ => json.plain(value),
    }
}

/// The byte of a character.
fn byte(value: Value) -> u8 {
    match value {
        Value::Unsigned(number) => number as u8,
        _ => b'?',
    }
}
