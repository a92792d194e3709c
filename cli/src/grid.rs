//! The command that prints the numbers of arrays and images: as lines, or as a picture.

use crate::choice::{self, Wanted};
use crate::datasets::Dataset;
use crate::element::{element, most_bytes};
use crate::fault::Fault;
use crate::input::{self, Input};
use crate::numbers::Numbers;
use crate::output::{self, Lines};
use crate::print::{tell, Print};
use crate::shape::{Form, Interlace, Shape};
use crate::text::refusal;
use crate::words::{long_number, Words};
use crate::{miscounted, pgm};
use hdf4::{Error, Rule, Value};
use std::borrow::Cow;

pub fn grid(words: &Words, print: &mut Print) -> Result<(), Fault> {
    let (path, wanted, out) = match (&words.all()[..], words.value("--name")) {
        (&[path, word], None) => (path, Wanted::new(word)?, None),
        (&[path, word, out], None) => (path, Wanted::new(word)?, Some(out)),
        (&[path], Some(name)) => (path, Wanted::Name(name), None),
        (&[path, out], Some(name)) => (path, Wanted::Name(name), Some(out)),
        _ => return Err(miscounted("grid")),
    };
    for [one, other] in [["--text", "--csv"], ["--text", "--pgm"], ["--csv", "--pgm"], ["--array", "--image"]] {
        if words.has(one) && words.has(other) {
            return Err(Fault::Use(format!("grid: {one} and {other} together; give one of them")));
        }
    }
    let limits =
        Limits { most: most_bytes(words)?, rows: words.value("--rows").map(|word| long_number("--rows", word)).transpose()? };
    let file = input::read(path)?;
    let (dataset, note) = choice::find(&file, &choice::kinds(words), &wanted)?;
    let grid = Grid::read(&file, &dataset, limits)?;
    let picture = words.has("--pgm").then(|| pgm::picture(&grid)).transpose()?;
    // Where nothing is refused it is said what was taken.
    note.iter().for_each(|note| tell(format_args!("{}: {note}", file.name)));
    if let Some(picture) = picture {
        return output::put(out, &file, &picture, print);
    }
    let marks = if words.has("--csv") { &COMMAS } else { &SPACES };
    output::put_lines(out, &file, print, |lines| grid.lines(marks, lines))
}

/// What the user knows better: the most bytes to make room for, and how many rows there are.
#[derive(Clone, Copy)]
struct Limits {
    most: Option<usize>,
    rows: Option<u32>,
}

/// What stands between the numbers of lines.
struct Marks {
    between_points: &'static str,
    between_components: &'static str,
    between_planes: &'static str,
}

const SPACES: Marks = Marks { between_points: " ", between_components: ",", between_planes: "\n" };
const COMMAS: Marks = Marks { between_points: ",", between_components: ",", between_planes: "" };

/// The numbers of an array or an image. There are as many as the sizes say.
pub struct Grid<'a> {
    pub file: &'a Input,
    /// How many dimensions there are.
    pub rank: usize,
    pub columns: usize,
    /// Rows of all planes; none where there are no numbers.
    pub rows: usize,
    rows_of_a_plane: usize,
    /// Numbers in each point.
    pub components: usize,
    interlace: Interlace,
    pub numbers: Numbers<'a>,
}

impl<'a> Grid<'a> {
    fn read(file: &'a Input, dataset: &Dataset, limits: Limits) -> Result<Grid<'a>, Fault> {
        let shape = Shape::of(file, dataset);
        if dataset.data.is_none() && !shape.as_ref().is_ok_and(Shape::has_none) {
            return Err(absent(file, dataset));
        }
        let shape = shape?;
        unpacked(file, dataset, &shape)?;
        let mut form = Form::of(file, shape)?;
        let bytes = data(file, dataset, &form.shape, limits.most)?;
        form.shape.sizes[0] = rows_of(file, dataset, &form, bytes.len() as u64, limits.rows)?;
        let Form { shape, layout } = form;
        let (columns, others) = shape.sizes.split_last().unwrap_or((&0, &[]));
        // No more than there are bytes, unless there are no numbers.
        let rows = if shape.has_none() { 0 } else { others.iter().map(|size| *size as usize).product() };
        Ok(Grid {
            file,
            rank: shape.sizes.len(),
            columns: *columns as usize,
            rows,
            rows_of_a_plane: others.last().map_or(1, |rows| *rows as usize),
            components: shape.components.into(),
            interlace: shape.interlace,
            numbers: Numbers { layout, bytes },
        })
    }

    /// The number at a point that is inside.
    pub fn at(&self, row: usize, column: usize, component: usize) -> Value {
        self.numbers.at(match self.interlace {
            Interlace::Pixel => (row * self.columns + column) * self.components + component,
            Interlace::Line => (row * self.components + component) * self.columns + column,
            Interlace::Plane => (component * self.rows + row) * self.columns + column,
        })
    }

    /// A line for each row.
    fn lines(&self, marks: &Marks, lines: &mut Lines) -> Result<(), Fault> {
        let mut progress = lines.progress("rows", self.rows);
        for row in 0..self.rows {
            progress.at(row);
            if self.rank > 2 && row > 0 && row % self.rows_of_a_plane == 0 {
                lines.text(format_args!("{}", marks.between_planes))?;
            }
            for column in 0..self.columns {
                for component in 0..self.components {
                    let mark = match (column, component) {
                        (0, 0) => "",
                        (_, 0) => marks.between_points,
                        _ => marks.between_components,
                    };
                    lines.text(format_args!("{mark}{}", self.at(row, column, component)))?;
                }
            }
            lines.text(format_args!("\n"))?;
        }
        Ok(())
    }
}

/// Sees to it that an image is not compressed.
fn unpacked(file: &Input, dataset: &Dataset, shape: &Shape) -> Result<(), Fault> {
    match (dataset.data, shape.packing) {
        (Some(data), Some((tag, reference))) => {
            let why = format_args!("the image {}/{} is compressed, by {tag}/{reference}", data.0, data.1);
            let place = file.place_of((dataset.kind.dimensions, dataset.dimensions));
            Err(file.refused(refusal(Rule::Storage, why, place)))
        }
        _ => Ok(()),
    }
}

/// The bytes of the data, at most so many. Where none are needed they may be not stored.
fn data<'a>(file: &'a Input, dataset: &Dataset, shape: &Shape, most: Option<usize>) -> Result<Cow<'a, [u8]>, Fault> {
    let Some(pair @ (tag, reference)) = dataset.data else { return Ok(Cow::Borrowed(&[])) };
    match hdf4::view(&file.bytes, tag, reference) {
        Err(Error { rule: Rule::NotStored, .. }) if shape.has_none() => Ok(Cow::Borrowed(&[])),
        Err(Error { rule: Rule::NotStored, place }) => {
            let why = format_args!("the numbers of the {} {tag}/{reference} are not stored yet", dataset.kind.name);
            Err(file.refused(refusal(Rule::NotStored, why, place)))
        }
        _ => element(file, pair, most),
    }
}

fn absent(file: &Input, dataset: &Dataset) -> Fault {
    let group = dataset.pairs().next().unwrap_or_default();
    file.refused(refusal(Rule::Absent, dataset.kind.without_data(group), 0))
}

/// How many rows are read of data of so many bytes: as many as the user says, or as dimensions and data say together. Data may have
/// more, but for planes of numbers, one after the other, where the user says how many rows each has.
fn rows_of(file: &Input, dataset: &Dataset, form: &Form, length: u64, wanted: Option<u32>) -> Result<u32, Fault> {
    let Form { shape, .. } = form;
    let Some(rows) = wanted else {
        let asking = || format!("its dimensions ask for {}", form.asked_by(shape.sizes[0]));
        return form.rows_in(length, dataset.is_unlimited).ok_or_else(|| file.refused(short(file, dataset, length, &asking())));
    };
    let is_by_plane = matches!(shape.interlace, Interlace::Plane) && shape.components > 1;
    let is_enough = |needed: u64| if is_by_plane { needed == length } else { needed <= length };
    if !form.bytes_of(rows).is_some_and(is_enough) {
        if dataset.data.is_none() {
            return Err(absent(file, dataset));
        }
        let refusal = short(file, dataset, length, &format!("--rows {rows} asks for {}", form.asked_by(rows)));
        let most = form.bytes_of(1).and_then(|row| length.checked_div(row)).unwrap_or(0);
        return Err(file.refused(format_args!("{refusal}; the data are enough for {most}")));
    }
    Ok(rows)
}

/// Data with fewer bytes than are asked for.
fn short(file: &Input, dataset: &Dataset, length: u64, asking: &str) -> String {
    let pair @ (tag, reference) = dataset.data.unwrap_or_default();
    refusal(Rule::Record, format_args!("{tag}/{reference} has {length} bytes, and {asking}"), file.place_of(pair))
}
