//! The command that lists the edits of a file that can be undone.

use crate::changes::{take_back, Edit};
use crate::fault::Fault;
use crate::input;
use crate::json::Json;
use crate::miscounted;
use crate::print::Print;
use crate::progress::Progress;
use crate::words::Words;
use hdf4::{Error, Rule};

/// The edits that can be undone, the newest first, found by undoing them one after the other in memory. Where a trailer below them
/// is damaged that is said behind them.
pub fn edits(words: &Words, print: &mut Print) -> Result<(), Fault> {
    let &[path] = &words.all()[..] else { return Err(miscounted("edits")) };
    let mut file = input::read(path)?;
    hdf4::open(&file.bytes).map_err(|e| file.refused(e))?;
    let (edits, damaged) = undone(&mut file.bytes);
    if words.has("--json") {
        json(&edits, Json::new(print))?;
    } else {
        edits.iter().try_for_each(|edit| print.text(format_args!("desk {} {edit}\n", edit.desk)))?;
    }
    damaged.map_or(Ok(()), |e| Err(file.refused(e)))
}

/// Undoes all edits of an image that opens, each for its own desk. Gives them, and what is wrong with the trailer below them.
fn undone(image: &mut Vec<u8>) -> (Vec<Edit>, Option<Error>) {
    let mut progress = Progress::new("edits", None);
    let mut edits = Vec::new();
    while let Some(desk) = hdf4::newest_desk(image) {
        let length = image.len();
        match take_back(image, length, desk) {
            Ok((length, edit)) => {
                image.truncate(length);
                edits.push(edit);
                progress.at(edits.len());
            }
            Err(e) => return (edits, Some(e).filter(|e| e.rule != Rule::NoEdit)),
        }
    }
    (edits, None)
}

fn json(edits: &[Edit], mut json: Json) -> Result<(), Fault> {
    json.open('{')?;
    json.array_entry("edits", edits, Edit::json)?;
    json.close('}')?;
    json.end()
}
