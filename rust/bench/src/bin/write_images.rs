//! Writes the images that inspect is timed on to a folder, each to a file of its own: a
//! sheet of the short form, the heap and the records.

use std::env;
use std::fs;
use std::io::{Error, ErrorKind, Result};
use std::path::Path;

use bench::images::{KINDS, LARGEST};
use differential::Form;

fn main() -> Result<()> {
    let Some(folder) = env::args_os().nth(1) else {
        let usage = "say the folder to write the images into";
        return Err(Error::new(ErrorKind::InvalidInput, usage));
    };
    for (size, count) in LARGEST {
        for (kind, make, _) in KINDS {
            let name = file_name(&format!("{size} x {count}, {kind}"));
            let image = make(Form::Short, size, count);
            fs::write(Path::new(&folder).join(name), image.bytes())?;
        }
    }
    Ok(())
}

/// What an image is called, in one word.
fn file_name(case: &str) -> String {
    case.replace(", ", "_").replace(' ', "-")
}
