//! The command that reads an element: its bytes, plain or of linked blocks.

use crate::fault::Fault;
use crate::input::{self, Input};
use crate::output::Lines;
use crate::print::{tell, Print};
use crate::words::{long_number, Given, Pair, Words};
use crate::{links, miscounted, output};
use hdf4::{Error, Rule};
use std::borrow::Cow;

/// The most bytes of an element that room is made for, if its file is not longer and the user names no other number.
const MOST_ROOM: usize = 64 << 20;

const BYTES_OF_A_LINE: usize = 16;

pub fn read(words: &Words, print: &mut Print) -> Result<(), Fault> {
    let (path, tag, reference, out) = match words.all()[..] {
        [path, tag, reference] => (path, tag, reference, None),
        [path, tag, reference, out] => (path, tag, reference, Some(out)),
        _ => return Err(miscounted("read")),
    };
    let given = Given::new(tag, reference)?;
    let most = most_bytes(words)?;
    let file = input::read(path)?;
    let (pair, note) = given.in_image(&file.bytes);
    let bytes = element(&file, pair, most)?;
    note.iter().for_each(|note| tell(format_args!("{}: {note}", file.name)));
    if words.has("--hex") {
        return output::put_lines(out, &file, print, |lines| hex(&bytes, lines));
    }
    output::put(out, &file, &bytes, print)
}

/// The most bytes to make room for, where the user names them.
pub fn most_bytes(words: &Words) -> Result<Option<usize>, Fault> {
    let most = words.value("--most").map(|word| long_number("--most", word));
    Ok(most.transpose()?.map(|most| most as usize))
}

/// The bytes of an element of a file, at most so many.
pub fn element(file: &Input, (tag, reference): Pair, most: Option<usize>) -> Result<Cow<'_, [u8]>, Fault> {
    match hdf4::view(&file.bytes, tag, reference) {
        Err(Error { rule: Rule::Storage, .. }) => linked(file, (tag, reference), most).map(Cow::Owned),
        part => part.map(Cow::Borrowed).map_err(|e| file.refused(e)),
    }
}

/// The bytes of a linked element. It may be longer than its file, where blocks are named twice or were never written, so that
/// there is a limit to the room that is made for it.
fn linked(file: &Input, (tag, reference): Pair, most: Option<usize>) -> Result<Vec<u8>, Fault> {
    let size = hdf4::size(&file.bytes, tag, reference).map_err(|e| file.refused(e))?;
    if size > most.unwrap_or(MOST_ROOM.max(file.bytes.len())) {
        let small = Error { rule: Rule::Small, place: 0 };
        return Err(file.refused(format_args!("{small}; the element has {size} bytes, see --most")));
    }
    let mut bytes = Vec::new();
    input::reserve(&file.name, &mut bytes, size)?;
    bytes.resize(size, 0);
    let copied = hdf4::copy(&file.bytes, tag, reference, &mut bytes);
    copied.map_err(|e| file.refused(links::told(file, (tag, reference), e)))?;
    Ok(bytes)
}

/// Lines of 16 bytes: where they start, the bytes in hexadecimal digits, and those that are printable.
fn hex(bytes: &[u8], lines: &mut Lines) -> Result<(), Fault> {
    let mut progress = lines.progress("bytes", bytes.len());
    for (index, line) in bytes.chunks(BYTES_OF_A_LINE).enumerate() {
        let start = index * BYTES_OF_A_LINE;
        progress.at(start);
        let digits: Vec<String> = line.iter().map(|byte| format!("{byte:02x}")).collect();
        let printable = |byte: &u8| if (b' '..=b'~').contains(byte) { char::from(*byte) } else { '.' };
        let letters: String = line.iter().map(printable).collect();
        lines.text(format_args!("{start:08x}  {:<47}  |{letters}|\n", digits.join(" ")))?;
    }
    Ok(())
}
