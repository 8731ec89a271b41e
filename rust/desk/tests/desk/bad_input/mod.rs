//! Command lines and files that are wrong in every way: one line on standard error, the status
//! of `docs/DESK.md`, and nothing on standard output but the object of `json`.

mod endless;
mod files;
mod line;
mod lists;
mod overwritten;
mod refused;

use std::path::PathBuf;

use differential::samples::dump;
use differential::Form;

use crate::question::scratch;
use crate::run::Ran;

/// The commands that read an image.
const READERS: [&str; 3] = ["report", "map", "json"];

/// Fails unless standard error has one line, which is the command's and no panic.
pub fn assert_one_line(ran: &Ran, story: &str) {
    let error = ran.stderr_text();
    let line = error.strip_prefix("combgallop: ");
    let line = line.and_then(|line| line.strip_suffix('\n'));
    let line = line.unwrap_or_else(|| panic!("no line of the command: {error:?}\n{story}"));
    assert!(!line.trim().is_empty(), "no words: {error:?}\n{story}");
    assert!(!line.contains(['\n', '\r']), "lines: {error:?}\n{story}");
    for sign in ["panicked", "RUST_BACKTRACE", "unwrap", "src/"] {
        assert!(!line.contains(sign), "{error:?}\n{story}");
    }
}

/// Fails unless the command line was called wrong, or a file could not be read or written.
pub fn assert_wrong(ran: &Ran, story: &str) {
    assert_one_line(ran, story);
    assert_eq!(ran.stdout_text(), "", "{story}");
    assert_eq!(ran.status, Some(3), "{story}");
    let error = ran.stderr_text();
    assert!(
        !error.starts_with("combgallop: refused"),
        "{error}\n{story}"
    );
}

/// A file with a sound image: nothing that is refused is refused for it.
fn sound_file(name: &str) -> PathBuf {
    let file = scratch(&format!("{name}.image"));
    let input = dump(Form::Short).input();
    std::fs::write(&file, input).expect("an image can be written");
    file
}
