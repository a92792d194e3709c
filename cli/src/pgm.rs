//! Grey pictures: binary PGM.

use crate::fault::Fault;
use crate::grid::Grid;
use crate::input;
use hdf4::Value;

/// A grid as a picture. Unsigned numbers of 8 and 16 bits are as they are; others go from 0, the least, to 255, the greatest.
pub fn picture(grid: &Grid) -> Result<Vec<u8>, Fault> {
    let why = match grid {
        Grid { rank, .. } if *rank > 2 => format!("an array of {rank} dimensions is no picture"),
        Grid { components, .. } if *components > 1 => format!("an image of {components} components is no grey picture"),
        Grid { rows: 0, .. } => "without numbers there is no picture".to_string(),
        grid => return painted(grid),
    };
    Err(Fault::Use(format!("{}: --pgm: {why}", grid.file.name)))
}

fn painted(grid: &Grid) -> Result<Vec<u8>, Fault> {
    let layout = &grid.numbers.layout;
    let is_as_it_is = layout.is_unsigned() && layout.size <= 2;
    let (size, most) = if is_as_it_is && layout.size == 2 { (2, 65535) } else { (1, 255) };
    let head = format!("P5\n{} {}\n{most}\n", grid.columns, grid.rows);
    let mut bytes = Vec::new();
    input::reserve(&grid.file.name, &mut bytes, head.len() + grid.rows * grid.columns * size)?;
    bytes.extend(head.as_bytes());
    if is_as_it_is {
        values(grid).for_each(|value| bytes.extend(&bits(value).to_be_bytes()[8 - size..]));
    } else {
        let scale = Scale::of(grid);
        bytes.extend(values(grid).map(|value| scale.grey(float(value))));
    }
    Ok(bytes)
}

fn values<'a>(grid: &'a Grid) -> impl Iterator<Item = Value> + 'a {
    (0..grid.rows).flat_map(move |row| (0..grid.columns).map(move |column| grid.at(row, column, 0)))
}

/// The bits of an unsigned number.
fn bits(value: Value) -> u64 {
    match value {
        Value::Unsigned(number) => number,
        _ => 0,
    }
}

fn float(value: Value) -> f64 {
    match value {
        Value::Signed(number) => number as f64,
        Value::Unsigned(number) => number as f64,
        Value::Float32(number) => number.into(),
        Value::Float64(number) => number,
    }
}

/// The least and the greatest finite number of a grid, times a factor: a half where their distance is more than a float holds.
struct Scale {
    least: f64,
    greatest: f64,
    factor: f64,
}

impl Scale {
    fn of(grid: &Grid) -> Scale {
        let finite = values(grid).map(float).filter(|number| number.is_finite());
        let ends = |ends: Option<(f64, f64)>, number: f64| {
            let (least, greatest) = ends.unwrap_or((number, number));
            Some((least.min(number), greatest.max(number)))
        };
        let (least, greatest) = finite.fold(None, ends).unwrap_or((0.0, 0.0));
        let factor = if (greatest - least).is_finite() { 1.0 } else { 0.5 };
        Scale { least: factor * least, greatest: factor * greatest, factor }
    }

    /// From 0 for the least to 255 for the greatest; 0 for what is no number, and for the one number of a grid that has no other.
    fn grey(&self, number: f64) -> u8 {
        let share = (self.factor * number - self.least) / (self.greatest - self.least);
        if share.is_nan() {
            return 0;
        }
        (255.0 * share).round().clamp(0.0, 255.0) as u8
    }
}
