//! Standard output: text and bytes, as they come.

use crate::fault::Fault;
use std::fmt::{Arguments, Display};
use std::io::{self, BufWriter, IsTerminal, StdoutLock, Write};

pub struct Print {
    out: BufWriter<StdoutLock<'static>>,
    given_up: bool,
}

impl Print {
    pub fn new() -> Print {
        Print { out: BufWriter::with_capacity(1 << 16, io::stdout().lock()), given_up: false }
    }

    pub fn bytes(&mut self, bytes: &[u8]) -> Result<(), Fault> {
        self.out.write_all(bytes).map_err(Fault::Unprinted)
    }

    /// Text by `format_args!`.
    pub fn text(&mut self, text: Arguments) -> Result<(), Fault> {
        self.out.write_fmt(text).map_err(Fault::Unprinted)
    }

    /// A line about what has been done already. Where it cannot be printed that is no fault of the command.
    pub fn report(&mut self, line: &str) -> io::Result<()> {
        let said = self.out.write_all(line.as_bytes()).and_then(|()| self.out.flush());
        self.given_up = said.is_err();
        said
    }

    pub fn flush(&mut self) -> Result<(), Fault> {
        if self.given_up {
            return Ok(());
        }
        self.out.flush().map_err(Fault::Unprinted)
    }
}

/// A line on standard error. If nobody can read it there is no one left to tell.
pub fn tell(message: impl Display) {
    let _ = writeln!(io::stderr(), "hdf4: {message}");
}

/// Whether a person would see what is printed.
pub fn to_a_terminal() -> bool {
    io::stdout().is_terminal()
}
