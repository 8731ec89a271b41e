//! Images that the library refuses because they end early or start wrong.

use differential::samples::dump;
use differential::Form;
use reference::Profile;

use super::{assert_one_line, READERS};
use crate::expected::{json_refusal, map_text, open, report_text};
use crate::json::parse;
use crate::question::{refusal_line, scratch, Question};
use crate::report::compare;
use crate::run::{run, Ran};

/// Writes an image to a file and runs a command on it.
fn run_on(question: &Question, command: &str, name: &str) -> Ran {
    let file = scratch(&format!("{name}.image"));
    std::fs::write(&file, &question.input).expect("an image can be written");
    let file = file.to_str().expect("a folder with a plain name");
    match question.profile {
        Profile::Kernel => run(&[command, file]),
        Profile::Userland => run(&[command, "--userland", file]),
    }
}

/// Each command on an image that is refused.
fn assert_refused(question: &Question, number: u8, name: &str, story: &str) {
    let Err(refusal) = open(question) else {
        panic!("the second program does not refuse it: {story}");
    };
    assert_eq!(refusal.number, number, "{story}");
    for reader in READERS {
        let ran = run_on(question, reader, name);
        assert_one_line(&ran, story);
        assert_eq!(ran.stderr_text(), refusal_line(refusal), "{reader} {story}");
        assert_eq!(ran.status, Some(2), "{reader} {story}");
        if reader == "json" {
            let found = parse(&ran.stdout_text());
            assert_eq!(found, Ok(json_refusal(question, refusal)), "{story}");
        } else {
            assert_eq!(ran.stdout_text(), "", "{reader} {story}");
        }
    }
}

#[test]
fn empty_file() {
    for profile in differential::PROFILES {
        let question = Question::plain(profile, Vec::new());
        assert_refused(&question, 1, "empty_file", "an empty file");
    }
    let question = Question::plain(Profile::Kernel, Vec::new());
    let ran = run(&["report", "-"]);
    compare(&question, &ran, report_text, &"an empty standard input");
}

/// The dump with a log of one row, cut at every place: in the sheet it is refused 1, behind it
/// 3, but where a whole log is left.
#[test]
fn dump_cut_at_every_place() {
    for form in [Form::Short, Form::UserLow] {
        let mut image = dump(form);
        image.log = vec![1; 16];
        let input = image.input();
        let sheet_end = 1 + image.sheet.len();
        let records_end = input.len() - 16;
        for length in 0..=input.len() {
            let story = format!("{form:?} dump, the first {length} bytes");
            let question = Question::plain(form.profile(), input[..length].to_vec());
            let expected = match length {
                _ if length < sheet_end => Some(1),
                _ if length == records_end || length == input.len() => None,
                _ => Some(3),
            };
            let refusal = open(&question).err();
            assert_eq!(refusal.map(|refusal| refusal.number), expected, "{story}");
            let ran = run_on(&question, "report", "dump_cut");
            compare(&question, &ran, report_text, &story);
        }
    }
}

/// One command and the others refuse alike, at a few of those places.
#[test]
fn dump_cut_at_some_places() {
    let input = dump(Form::Low).input();
    for (length, number) in [
        (1, 1),
        (20, 1),
        (52, 1),
        (53, 3),
        (100, 3),
        (172, 3),
        (460, 3),
    ] {
        let question = Question::plain(Profile::Kernel, input[..length].to_vec());
        let story = format!("the first {length} bytes");
        assert_refused(&question, number, "dump_cut_some", &story);
    }
}

/// Every length byte before the dump.
#[test]
fn every_length_byte() {
    for byte in 0..=255 {
        for form in [Form::Short, Form::High] {
            let mut input = dump(form).input();
            input.resize(input.len() + 256, 0);
            input[0] = byte;
            let question = Question::plain(Profile::Kernel, input);
            let ran = run_on(&question, "map", "every_length_byte");
            let story = format!("length byte {byte}, {form:?} dump");
            compare(&question, &ran, map_text, &story);
        }
    }
}

/// A file that is no image at all: the command's own.
#[test]
fn no_image() {
    let input = std::fs::read(crate::run::PROGRAM).expect("the command's file");
    let question = Question::plain(Profile::Kernel, input);
    assert_refused(&question, 1, "no_image", "the command's own file");
}
