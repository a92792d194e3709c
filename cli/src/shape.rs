//! The sizes of arrays and images, and how their numbers stand in bytes, by their records of dimensions and of number types.

use crate::datasets::Dataset;
use crate::directory::{ARRAY, COMPRESSED, IMAGE};
use crate::fault::Fault;
use crate::input::Input;
use crate::numbers::Layout;
use crate::text::refusal;
use crate::words::Pair;
use hdf4::{base_tag, Error, Rule};

const NUMBER_TYPE: u16 = 106;

/// In which order an image has its numbers.
#[derive(Clone, Copy)]
pub enum Interlace {
    Pixel,
    Line,
    Plane,
}

/// What a record of dimensions says.
pub struct Shape {
    /// One at least; columns last.
    pub sizes: Vec<u32>,
    /// Numbers in each point.
    pub components: u16,
    pub interlace: Interlace,
    /// What an image is compressed by.
    pub packing: Option<Pair>,
    /// Tag and reference of the record.
    dimensions: Pair,
    number_type: Pair,
}

impl Shape {
    pub fn of(file: &Input, dataset: &Dataset) -> Result<Shape, Fault> {
        let dimensions @ (tag, reference) = (dataset.kind.dimensions, dataset.dimensions);
        let refused = |e: Error| file.refused(format_args!("{tag}/{reference}: {e}"));
        let pair = |pair: hdf4::Pair| (pair.tag, pair.reference);
        if dataset.kind == &ARRAY {
            let array = hdf4::read_array(&file.bytes, reference).map_err(refused)?;
            // There is one pair more than there are sizes.
            let number_type = pair(array.pairs[0]);
            let (components, interlace, packing) = (1, Interlace::Pixel, None);
            return Ok(Shape { sizes: array.sizes, components, interlace, packing, dimensions, number_type });
        }
        let record = hdf4::read_dimension(&file.bytes, tag, reference).map_err(refused)?;
        let compression = pair(record.compression);
        let is_packed = compression.0 != 0 || dataset.data.is_some_and(|data| data.0 == COMPRESSED);
        let interlace = match record.interlace {
            0 => Interlace::Pixel,
            1 => Interlace::Line,
            _ => Interlace::Plane,
        };
        let (sizes, components) = (vec![record.y, record.x], record.elements);
        let (packing, number_type) = (is_packed.then_some(compression), pair(record.number_type));
        Ok(Shape { sizes, components, interlace, packing, dimensions, number_type })
    }

    /// How the numbers stand in bytes, by the number type that the dimensions name.
    fn layout(&self, file: &Input) -> Result<Layout, Fault> {
        let (dimensions, (tag, reference)) = (self.dimensions, self.number_type);
        if base_tag(tag) != NUMBER_TYPE {
            let why = format_args!("{}/{} names {tag}/{reference}, which is no number type", dimensions.0, dimensions.1);
            return Err(file.refused(refusal(Rule::Type, why, file.place_of(dimensions))));
        }
        let number_type = hdf4::read_number_type(&file.bytes, reference);
        let number_type = number_type.map_err(|e| file.refused(format_args!("{NUMBER_TYPE}/{reference}: {e}")))?;
        Layout::of(&number_type, dimensions.0 == IMAGE.dimensions).ok_or_else(|| {
            let hdf4::NumberType { number_type, width, class, .. } = number_type;
            let why = format_args!("a number type is not known: code {number_type}, {width} bits, class {class}");
            file.refused(refusal(Rule::Type, why, file.place_of((NUMBER_TYPE, reference))))
        })
    }

    /// Whether there are no numbers.
    pub fn has_none(&self) -> bool {
        self.components == 0 || self.sizes.contains(&0)
    }
}

/// Sizes, and how the numbers stand in bytes.
pub struct Form {
    pub shape: Shape,
    pub layout: Layout,
}

impl Form {
    pub fn of(file: &Input, shape: Shape) -> Result<Form, Fault> {
        Ok(Form { layout: shape.layout(file)?, shape })
    }

    /// How many bytes so many rows have, a row being all that has one number of the first dimension; none where it is too many.
    pub fn bytes_of(&self, rows: u32) -> Option<u64> {
        let Form { shape, layout } = self;
        let sizes = shape.sizes[1..].iter().map(|size| u64::from(*size));
        product(sizes.chain([rows.into(), shape.components.into(), layout.size as u64]))
    }

    /// That number in words.
    pub fn asked_by(&self, rows: u32) -> String {
        self.bytes_of(rows).map_or("too many".to_string(), |bytes| bytes.to_string())
    }

    /// How many rows data of so many bytes have: as many as the dimensions say, if there are as many. libhdf4 leaves the number in
    /// the dimensions as it was when data with an unlimited dimension grow, and goes by the bytes: so it is where these are whole
    /// rows.
    pub fn rows_in(&self, length: u64, is_unlimited: bool) -> Option<u32> {
        let grown = || match self.bytes_of(1) {
            Some(row @ 1..) if is_unlimited && length % row == 0 => u32::try_from(length / row).ok(),
            _ => None,
        };
        let rows = grown().unwrap_or(self.shape.sizes[0]);
        self.bytes_of(rows).is_some_and(|needed| needed <= length).then_some(rows)
    }
}

/// The product of some numbers, if it is no more than 64 bits.
fn product(mut factors: impl Iterator<Item = u64> + Clone) -> Option<u64> {
    if factors.clone().any(|factor| factor == 0) {
        return Some(0);
    }
    factors.try_fold(1, u64::checked_mul)
}
