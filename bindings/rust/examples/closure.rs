//! Adds a road closure to a small file in memory, reads it, and takes it back. A second desk can neither add it again nor take
//! it back.
//!
//!     cargo run --example closure

use hdf4::{Error, File, Rule};

/// A file of one element, tag 100 and reference 1, and a free slot.
const ARRIVED: [u8; 37] = *b"\x0e\x03\x13\x01\x00\x02\x00\x00\x00\x00\
                             \x00\x64\x00\x01\x00\x00\x00\x22\x00\x00\x00\x03\
                             \x00\x01\x00\x00\x00\x00\x00\x00\x00\x00\x00\x00hub";

/// The desks that mark the file. A program that edits it alone names desk 0.
const FIRST_DESK: u32 = 1;
const SECOND_DESK: u32 = 2;

/// Tag and reference of the closure.
const CLOSURE: (u16, u16) = (40000, 5);
const TEXT: &[u8] = b"pass road closed: snow";

fn main() -> Result<(), Error> {
    let (tag, reference) = CLOSURE;
    let mut file = File::new(ARRIVED.to_vec())?;

    file.add(FIRST_DESK, tag, reference, TEXT)?;
    println!("added: {} bytes became {}", ARRIVED.len(), file.bytes().len());

    for element in file.elements() {
        println!("tag {} ref {}: {} bytes", element.tag, element.reference, element.length);
    }
    let read = file.view(tag, reference)?;
    println!("read: {}", read.escape_ascii());
    assert_eq!(read, TEXT);

    // A second closure under the same reference is refused, whoever adds it, and nothing is written.
    let refused = file.add(SECOND_DESK, tag, reference, TEXT).unwrap_err();
    println!("refused: {refused}");
    assert_eq!(refused.rule, Rule::Present);

    // A desk takes back its own edits, and no other's.
    let refused = file.undo(SECOND_DESK).unwrap_err();
    println!("refused: {refused}");
    assert_eq!((refused.rule, file.newest_desk()), (Rule::OtherDesk, Some(FIRST_DESK)));

    file.undo(FIRST_DESK)?;
    println!("taken back: {} bytes", file.bytes().len());
    assert_eq!(file.bytes(), ARRIVED);
    Ok(())
}

#[test]
fn the_example_runs() {
    assert_eq!(main(), Ok(()));
}
