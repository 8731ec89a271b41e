//! Lawful input that is handed over in unusual ways.

use std::fs;
use std::io::Write;
use std::process::ChildStdin;
use std::thread;

use differential::samples::dump;
use differential::{Form, KERNEL_FORMS};
use reference::Profile;

use crate::expected::{open, report_text};
use crate::question::{scratch, Question};
use crate::report::compare;
use crate::run::{command, finish, Feed};

/// A pipe hands over what it has, so the command must ask again for the rest.
#[test]
fn small_pieces() {
    for form in KERNEL_FORMS {
        let mut image = dump(form);
        image.log = vec![3; 48];
        for length in [1, 3, 47, 100] {
            let input = image.input();
            let question = Question::plain(Profile::Kernel, input.clone());
            let feed: Feed = Box::new(move |mut pipe: ChildStdin| {
                for piece in input.chunks(length) {
                    let _ = pipe.write_all(piece);
                    thread::yield_now();
                }
            });
            let ran = finish(command(&["report", "-"]), Some(feed));
            let story = format!("{form:?} dump, pieces of {length} bytes");
            compare(&question, &ran, report_text, &story);
            assert_eq!(ran.status, Some(0), "{story}");
        }
    }
}

/// Behind `--` a name is a file's, whatever it looks like.
#[test]
fn behind_two_dashes() {
    let folder = scratch("behind_two_dashes");
    fs::create_dir_all(&folder).expect("a folder can be made");
    let input = dump(Form::Low).input();
    let question = Question::plain(Profile::Kernel, input.clone());
    let text = report_text(&open(&question).expect("the dump is not refused"));
    for name in [
        "--userland",
        "--now=5",
        "--now",
        "-x",
        "--",
        "--help",
        "report",
    ] {
        fs::write(folder.join(name), &input).expect("an image can be written");
        let mut command = command(&["report", "--", name]);
        command.current_dir(&folder);
        let ran = finish(command, None);
        assert_eq!(ran.stderr_text(), "", "{name}");
        assert_eq!(ran.stdout_text(), text, "{name}");
        assert_eq!(ran.status, Some(0), "{name}");
    }
}
