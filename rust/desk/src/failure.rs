//! Why a command ends without what was asked for.

use std::ffi::OsStr;
use std::fmt::{Display, Formatter, Result as Written};
use std::io::Error;

use combgallop::Refusal;

#[derive(Debug)]
pub enum Failure {
    /// The library refuses the image or the magazine list.
    Refused(Refusal),
    /// The command line is wrong, or a file cannot be read or written.
    Wrong(String),
}

impl Failure {
    /// A file that cannot be read or written. Its name is quoted, so that it stays on the line.
    pub fn of_file(file: &OsStr, error: Error) -> Failure {
        Failure::Wrong(format!("{file:?}: {error}"))
    }

    pub fn status(&self) -> u8 {
        match self {
            Failure::Refused(_) => 2,
            Failure::Wrong(_) => 3,
        }
    }
}

impl From<Refusal> for Failure {
    fn from(refusal: Refusal) -> Failure {
        Failure::Refused(refusal)
    }
}

impl Display for Failure {
    fn fmt(&self, out: &mut Formatter) -> Written {
        match self {
            Failure::Refused(refusal) => {
                let meaning = refusal.meaning();
                let (number, name) = (refusal.number(), meaning.name);
                write!(out, "refused {number}, {name}: {}", meaning.words)
            }
            Failure::Wrong(what) => out.write_str(what),
        }
    }
}
