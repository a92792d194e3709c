//! Why a command could not do what it should. The kind is the exit status.

use std::fmt::Display;
use std::io;

pub enum Fault {
    /// The library refused, or found nothing of that name.
    Refused(Vec<String>),
    /// The words of the command say nothing that can be done.
    Use(String),
    /// Files, memory and the system.
    System(String),
    /// What was to be printed could not be.
    Unprinted(io::Error),
    /// Those of several parts of a file, and the status.
    Several(u8, Vec<String>),
}

impl Fault {
    /// A refusal, about a file or a part of it.
    pub fn refused(about: impl Display, refusal: impl Display) -> Fault {
        Fault::Refused(vec![format!("{about}: {refusal}")])
    }

    /// What the system said, about a file.
    pub fn system(about: impl Display, said: impl Display) -> Fault {
        Fault::System(format!("{about}: {said}"))
    }

    /// Several faults as one: every message, and the status of the first.
    pub fn all(faults: Vec<Fault>) -> Result<(), Fault> {
        let mut faults = faults.into_iter();
        let Some(first) = faults.next() else { return Ok(()) };
        let status = first.status();
        let messages = first.messages().into_iter().chain(faults.flat_map(Fault::messages)).collect();
        Err(Fault::Several(status, messages))
    }

    pub fn status(&self) -> u8 {
        match self {
            // The reader of a pipe had enough, as `head` has.
            Fault::Unprinted(e) if e.kind() == io::ErrorKind::BrokenPipe => 0,
            Fault::Refused(_) => 1,
            Fault::Use(_) => 2,
            Fault::System(_) | Fault::Unprinted(_) => 3,
            Fault::Several(status, _) => *status,
        }
    }

    /// One line each.
    pub fn messages(self) -> Vec<String> {
        match self {
            Fault::Unprinted(e) if e.kind() == io::ErrorKind::BrokenPipe => Vec::new(),
            Fault::Unprinted(e) => vec![format!("standard output: {e}")],
            Fault::Refused(messages) | Fault::Several(_, messages) => messages,
            Fault::Use(message) | Fault::System(message) => vec![message],
        }
    }
}
