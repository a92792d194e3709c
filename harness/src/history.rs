//! A history of whole files beside a sequence of calls. It gets the start file, the buffer's length and the arguments of the
//! calls, and none of their answers. Beside each file that an edit made it keeps the edit's desk: for that desk an undo takes the
//! file off, whatever stands in it, and for no other.

use crate::editor::{self, Form, Refused, Request};

pub struct History {
    capacity: u64,
    start: Vec<u8>,
    made: Vec<Made>,
}

/// A file that an edit made, and the edit's desk.
struct Made {
    file: Vec<u8>,
    desk: u32,
}

impl History {
    pub fn new(start: &[u8], capacity: usize) -> History {
        History { capacity: capacity as u64, start: start.to_vec(), made: Vec::new() }
    }

    /// The file on top.
    pub fn top(&self) -> &[u8] {
        self.made.last().map_or(&self.start, |made| &made.file)
    }

    /// How many edits can be undone without looking at a trailer.
    pub fn edits(&self) -> usize {
        self.made.len()
    }

    /// The desk of the newest of these edits.
    pub fn newest_desk(&self) -> Option<u32> {
        self.made.last().map(|made| made.desk)
    }

    /// Takes a call; answers the length of the file then on top.
    pub fn call(&mut self, request: &Request) -> Result<u64, Refused> {
        match request {
            Request::Undo { desk } => self.undo(*desk)?,
            Request::Edit(edit) => {
                let file = editor::perform(self.top(), self.capacity, request)?;
                self.made.push(Made { file, desk: edit.desk });
            }
        }
        Ok(self.top().len() as u64)
    }

    fn undo(&mut self, desk: u32) -> Result<(), Refused> {
        match self.newest_desk() {
            None => self.start = editor::undo(&self.start, desk)?,
            Some(newest) if newest == desk => drop(self.made.pop()),
            Some(_) => return Err(Refused::by_desk(self.top().len() as u64, Form::Long)),
        }
        Ok(())
    }
}
