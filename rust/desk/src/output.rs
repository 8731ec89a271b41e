//! What is written, and where.

use std::ffi::OsStr;
use std::fs;
use std::io::{stdout, ErrorKind, Write};

use crate::failure::Failure;

/// Writes a text to standard output. Whoever reads it may stop early: that is no error.
pub fn print(text: &str) -> Result<(), Failure> {
    let mut out = stdout().lock();
    match out.write_all(text.as_bytes()).and_then(|()| out.flush()) {
        Err(error) if error.kind() != ErrorKind::BrokenPipe => {
            Err(Failure::Wrong(format!("standard output: {error}")))
        }
        _ => Ok(()),
    }
}

/// Writes a text to a file, or to standard output where it is called `-`. A file that was read
/// for it is not written over: a dump may be the only one.
pub fn write(file: &OsStr, text: &str, read: &[&OsStr]) -> Result<(), Failure> {
    if file == "-" {
        return print(text);
    }
    if read.iter().any(|other| is_same(file, other)) {
        let what = format!("{file:?}: it is read, and would be written over");
        return Err(Failure::Wrong(what));
    }
    fs::write(file, text).map_err(|error| Failure::of_file(file, error))
}

/// Whether two names are of one file that exists.
fn is_same(one: &OsStr, other: &OsStr) -> bool {
    match (fs::canonicalize(one), fs::canonicalize(other)) {
        (Ok(one), Ok(other)) => one == other,
        _ => false,
    }
}
