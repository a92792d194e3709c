//! The numbers in the data of arrays and images.

use hdf4::{NumberType, Value};
use std::borrow::Cow;

#[derive(Clone, Copy, PartialEq)]
enum Form {
    Signed,
    Unsigned,
    Float,
}

/// Code, name, bytes and form of the number types that are read. The first two are characters.
const TYPES: [(u8, &str, usize, Form); 10] = [
    (3, "uchar8", 1, Form::Unsigned),
    (4, "char8", 1, Form::Unsigned),
    (5, "float32", 4, Form::Float),
    (6, "float64", 8, Form::Float),
    (20, "int8", 1, Form::Signed),
    (21, "uint8", 1, Form::Unsigned),
    (22, "int16", 2, Form::Signed),
    (23, "uint16", 2, Form::Unsigned),
    (24, "int32", 4, Form::Signed),
    (25, "uint32", 4, Form::Unsigned),
];

/// Classes of number types: which byte of a number stands first. A number of one byte may have any class.
const HIGH_BYTE_FIRST: u8 = 1;
const LOW_BYTE_FIRST: u8 = 4;
const NO_ORDER: u8 = 0;

/// How a number stands in bytes.
#[derive(Clone, Copy)]
pub struct Layout {
    pub code: u8,
    /// The name of the type.
    pub name: &'static str,
    form: Form,
    /// Bytes of a number.
    pub size: usize,
    pub low_first: bool,
}

impl Layout {
    /// The layout that a number type names, if it is known. Class 0 says nothing about the order of bytes; of images libhdf4
    /// writes it always, and reads them high byte first.
    pub fn of(number_type: &NumberType, is_image: bool) -> Option<Layout> {
        let &NumberType { number_type: code, width, class, .. } = number_type;
        let &(_, name, size, form) = TYPES.iter().find(|known| known.0 == code)?;
        let has_order = size == 1 || class == HIGH_BYTE_FIRST || class == LOW_BYTE_FIRST || (is_image && class == NO_ORDER);
        let layout = Layout { code, name, form, size, low_first: class == LOW_BYTE_FIRST };
        (has_order && usize::from(width) == 8 * size).then_some(layout)
    }

    pub fn is_unsigned(&self) -> bool {
        self.form == Form::Unsigned
    }

    /// The number that some bytes are.
    fn value(&self, bytes: &[u8]) -> Value {
        let joined = |bits: u64, byte: &u8| bits << 8 | u64::from(*byte);
        let bits = if self.low_first { bytes.iter().rev().fold(0, joined) } else { bytes.iter().fold(0, joined) };
        match (self.form, self.size) {
            (Form::Float, 4) => Value::Float32(f32::from_bits(bits as u32)),
            (Form::Float, _) => Value::Float64(f64::from_bits(bits)),
            (Form::Unsigned, _) => Value::Unsigned(bits),
            (Form::Signed, size) => {
                let unused = 64 - 8 * size;
                Value::Signed((bits << unused) as i64 >> unused)
            }
        }
    }
}

/// Numbers one after the other.
pub struct Numbers<'a> {
    pub layout: Layout,
    pub bytes: Cow<'a, [u8]>,
}

impl Numbers<'_> {
    /// The number at a place, which must be inside.
    pub fn at(&self, index: usize) -> Value {
        let size = self.layout.size;
        self.layout.value(&self.bytes[index * size..][..size])
    }
}

#[cfg(test)]
mod tests {
    use super::*;

    fn layout(number_type: u8, width: u8, class: u8) -> Option<Layout> {
        Layout::of(&NumberType { version: 1, number_type, width, class }, false)
    }

    #[test]
    fn signs_and_byte_orders_are_kept() {
        let value = |code, width, class, bytes: &[u8]| layout(code, width, class).unwrap().value(bytes);
        assert_eq!(value(20, 8, 0, b"\xff"), Value::Signed(-1));
        assert_eq!(value(21, 8, 9, b"\xff"), Value::Unsigned(255));
        assert_eq!(value(22, 16, 1, b"\x80\x00"), Value::Signed(-32768));
        assert_eq!(value(22, 16, 4, b"\x80\x00"), Value::Signed(128));
        assert_eq!(value(24, 32, 1, b"\xff\xff\xff\xfe"), Value::Signed(-2));
        assert_eq!(value(25, 32, 4, b"\x01\x00\x00\x80"), Value::Unsigned(0x8000_0001));
        assert_eq!(value(5, 32, 1, b"\x3f\xc0\x00\x00"), Value::Float32(1.5));
        assert_eq!(value(6, 64, 4, b"\0\0\0\0\0\0\xf8\x3f"), Value::Float64(1.5));
    }

    #[test]
    fn other_types_are_not_known() {
        for [code, width, class] in [[7, 32, 1], [24, 32, 2], [24, 32, 0], [24, 16, 1], [26, 64, 1], [0, 0, 0]] {
            assert!(layout(code, width, class).is_none(), "{code} {width} {class}");
        }
        let image = Layout::of(&NumberType { version: 1, number_type: 22, width: 16, class: 0 }, true).unwrap();
        assert_eq!(image.value(b"\xff\x00"), Value::Signed(-256));
    }
}
