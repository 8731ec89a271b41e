//! Writes the stored images into a folder.

use std::env;
use std::fs;
use std::io::{Error, ErrorKind, Result};
use std::path::Path;

use differential::samples::stored_samples;

fn main() -> Result<()> {
    let Some(folder) = env::args_os().nth(1) else {
        let usage = "say the folder to write the images into";
        return Err(Error::new(ErrorKind::InvalidInput, usage));
    };
    let folder = Path::new(&folder);
    for (name, image) in stored_samples() {
        fs::write(folder.join(name).with_extension("image"), image.input())?;
    }
    Ok(())
}
