//! Writes what `crates/stored_images` reads and has to write, `stdin` and `stdout`, into
//! a folder.

use std::env;
use std::fs;
use std::io::{Error, ErrorKind, Result};
use std::path::Path;

use differential::stored;

fn main() -> Result<()> {
    let Some(folder) = env::args_os().nth(1) else {
        let usage = "say the folder to write stdin and stdout into";
        return Err(Error::new(ErrorKind::InvalidInput, usage));
    };
    let folder = Path::new(&folder);
    fs::write(folder.join("stdin"), stored::input())?;
    fs::write(folder.join("stdout"), stored::text())
}
