//! JSON, written as it comes.

use crate::fault::Fault;
use crate::print::Print;
use std::fmt::{Display, Write};

/// Writes one value, with commas where they belong. Who calls sees to it that what is opened is closed.
pub struct Json<'a> {
    print: &'a mut Print,
    comma: bool,
}

impl<'a> Json<'a> {
    pub fn new(print: &'a mut Print) -> Json<'a> {
        Json { print, comma: false }
    }

    /// Begins an array, `[`, or an object, `{`.
    pub fn open(&mut self, bracket: char) -> Result<(), Fault> {
        self.part(bracket, false)
    }

    pub fn close(&mut self, bracket: char) -> Result<(), Fault> {
        self.comma = false;
        self.part(bracket, true)
    }

    /// The name of the value that comes next in an object.
    pub fn key(&mut self, name: &str) -> Result<(), Fault> {
        self.part(format_args!("\"{name}\":"), false)
    }

    /// A number, `true`, `false` or `null`.
    pub fn plain(&mut self, value: impl Display) -> Result<(), Fault> {
        self.part(value, true)
    }

    /// Bytes as text: each is the character with its number as code point.
    pub fn text(&mut self, bytes: &[u8]) -> Result<(), Fault> {
        self.part(format_args!("\"{}\"", escaped(bytes)), true)
    }

    /// A plain value with its name.
    pub fn entry(&mut self, name: &str, value: impl Display) -> Result<(), Fault> {
        self.key(name)?;
        self.plain(value)
    }

    /// A plain value with its name, or null.
    pub fn optional_entry(&mut self, name: &str, value: Option<impl Display>) -> Result<(), Fault> {
        match value {
            Some(value) => self.entry(name, value),
            None => self.entry(name, "null"),
        }
    }

    /// A text with its name.
    pub fn text_entry(&mut self, name: &str, bytes: &[u8]) -> Result<(), Fault> {
        self.key(name)?;
        self.text(bytes)
    }

    /// An array with its name.
    pub fn array_entry<T, F>(&mut self, name: &str, items: impl IntoIterator<Item = T>, mut each: F) -> Result<(), Fault>
    where
        F: FnMut(T, &mut Json) -> Result<(), Fault>,
    {
        self.key(name)?;
        self.open('[')?;
        for item in items {
            each(item, self)?;
        }
        self.close(']')
    }

    /// The line end behind the value.
    pub fn end(self) -> Result<(), Fault> {
        self.print.bytes(b"\n")
    }

    fn part(&mut self, text: impl Display, is_whole: bool) -> Result<(), Fault> {
        let comma = if self.comma { "," } else { "" };
        self.comma = is_whole;
        self.print.text(format_args!("{comma}{text}"))
    }
}

/// The inside of a JSON string, in ASCII.
fn escaped(bytes: &[u8]) -> String {
    let mut text = String::new();
    for byte in bytes {
        match byte {
            b'"' => text += "\\\"",
            b'\\' => text += "\\\\",
            b'\n' => text += "\\n",
            b'\r' => text += "\\r",
            b'\t' => text += "\\t",
            b' '..=b'~' => text.push(char::from(*byte)),
            // Writing to a string never fails.
            _ => drop(write!(text, "\\u{byte:04x}")),
        }
    }
    text
}

#[cfg(test)]
mod tests {
    use super::*;

    #[test]
    fn every_byte_is_escaped_where_it_must_be() {
        assert_eq!(escaped(b"a\"b\\c\n\r\t/~"), "a\\\"b\\\\c\\n\\r\\t/~");
        assert_eq!(escaped(b"\0\x1f\x7f\x80\xe9\xff"), "\\u0000\\u001f\\u007f\\u0080\\u00e9\\u00ff");
    }
}
