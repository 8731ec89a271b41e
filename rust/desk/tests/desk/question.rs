//! What the command is asked: an image under a profile, a magazine list and an uptime; and the
//! ways in which it can be asked for the same.

use std::ffi::OsString;
use std::fs;
use std::path::{Path, PathBuf};

use differential::Sequence;
use reference::{Profile, Refusal};

use crate::run::{run, run_fed, Ran};
use crate::table;

/// The file's bytes, and what stands beside it on the command line.
#[derive(Clone)]
pub struct Question {
    pub profile: Profile,
    pub input: Vec<u8>,
    /// None where the command line has no list.
    pub magazines: Option<Vec<u32>>,
    pub now: Option<u32>,
}

impl Question {
    /// An image alone.
    pub fn plain(profile: Profile, input: Vec<u8>) -> Question {
        Question {
            profile,
            input,
            magazines: None,
            now: None,
        }
    }
}

/// A file of a test. Every test has names of its own, since tests run beside each other.
pub fn scratch(name: &str) -> PathBuf {
    Path::new(env!("CARGO_TARGET_TMPDIR")).join(name)
}

/// A number as the command takes it: decimal, or hexadecimal behind `0x`.
fn some_number(number: u32, sequence: &mut Sequence) -> String {
    match sequence.below(4) {
        0 => format!("{number}"),
        1 => format!("0x{number:X}"),
        2 => format!("{number:#010x}"),
        _ => format!("{number:#x}"),
    }
}

/// The text of a magazine list, with white space and comments of every kind.
fn some_list(words: &[u32], sequence: &mut Sequence) -> String {
    const BEFORE: [&str; 5] = ["", " ", "\t", "# 17 is no word\n", "\n\n"];
    const BEHIND: [&str; 5] = [" ", "\n", "\r\n", "\t ", "# of 0x10\n"];
    let mut text = String::new();
    for &word in words {
        text += sequence.pick(&BEFORE);
        text += &some_number(word, sequence);
        text += sequence.pick(&BEHIND);
    }
    text += sequence.pick(&["", "\n", "#", "# the end"]);
    text
}

/// An option with its value, in either form.
fn option(name: &str, value: &str, sequence: &mut Sequence) -> Vec<OsString> {
    if sequence.once_in(2) {
        vec![format!("{name}={value}").into()]
    } else {
        vec![name.into(), value.into()]
    }
}

/// The options of a question, each with its value. The list is written to a file.
fn options(question: &Question, name: &str, sequence: &mut Sequence) -> Vec<Vec<OsString>> {
    let mut options: Vec<Vec<OsString>> = Vec::new();
    if question.profile == Profile::Userland {
        options.push(vec!["--userland".into()]);
    }
    if let Some(words) = &question.magazines {
        let file = scratch(&format!("{name}.magazines"));
        fs::write(&file, some_list(words, sequence)).expect("a list can be written");
        let file = file.to_str().expect("a folder with a plain name");
        options.push(option("--magazines", file, sequence));
    }
    if let Some(now) = question.now {
        let now = some_number(now, sequence);
        options.push(option("--now", &now, sequence));
    }
    options
}

/// Asks the command: its name, and further options of one argument each. The options stand
/// before and behind the file, and the file is named or is standard input.
pub fn ask(question: &Question, how: &[&str], name: &str, sequence: &mut Sequence) -> Ran {
    let is_fed = sequence.once_in(4);
    let mut parts = options(question, name, sequence);
    parts.extend(how[1..].iter().map(|more| vec![OsString::from(more)]));
    sequence.shuffle(&mut parts);
    let place = sequence.below(parts.len() + 1);
    let file = scratch(&format!("{name}.image"));
    let file = if is_fed { "-".into() } else { file };
    parts.insert(place, vec![file.clone().into()]);
    parts.insert(0, vec![how[0].into()]);
    let arguments = parts.concat();
    if is_fed {
        return run_fed(&arguments, question.input.clone());
    }
    fs::write(file, &question.input).expect("an image can be written");
    run(&arguments)
}

/// What standard error has to say of a refusal.
pub fn refusal_line(refusal: Refusal) -> String {
    let number = refusal.number;
    let row = table::refusal(number);
    format!(
        "combgallop: refused {number}, {}: {}\n",
        row.name, row.words
    )
}
