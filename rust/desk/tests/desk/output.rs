//! Where standard output is closed, or cannot be written to.

use std::fs::OpenOptions;
use std::io::pipe;
use std::process::{Command, Stdio};

use differential::{Form, Image, Shape};

use crate::bad_input::assert_wrong;
use crate::expected::open;
use crate::question::{scratch, Question};
use crate::run::{command, finish_writing_elsewhere, run, Ran};

/// As many buffers as there can be: the object of such an image is longer than a pipe holds.
fn large_image() -> Image {
    let shape = Shape {
        cache: 0x70,
        heap_base: 0x1000_0000,
        record_base: 0x2000_0000,
        size: 16,
        count: 512,
    };
    Image::laid_out(Form::Low, shape, [0; 5])
}

/// Writes an image to a file, and answers its name.
fn stored(image: &Image, name: &str) -> String {
    let file = scratch(name);
    std::fs::write(&file, image.input()).expect("an image can be written");
    let file = file.to_str().expect("a folder with a plain name");
    String::from(file)
}

/// Every command that writes to standard output.
fn lines(file: &str) -> [Vec<&str>; 7] {
    [
        vec!["report", file],
        vec!["map", file],
        vec!["map", file, "--svg", "-"],
        vec!["json", file],
        vec!["explain", "28"],
        vec!["--help"],
        vec!["--version"],
    ]
}

/// Nobody reads what the command writes, from its start on.
fn run_unread(mut command: Command) -> Ran {
    let (reader, writer) = pipe().expect("a pipe can be made");
    drop(reader);
    command.stdout(writer);
    finish_writing_elsewhere(command, None)
}

/// An image that is sound and one that is not, with the status that they have anyway.
#[test]
fn closed() {
    let sound = large_image();
    let mut hurt = large_image();
    hurt.heap[5] ^= 1;
    for (image, status) in [(sound, 0), (hurt, 1)] {
        let question = Question::plain(image.profile(), image.input());
        let is_status = open(&question).map(|dump| dump.status());
        assert_eq!(is_status, Ok(status), "the second program's status");
        let file = stored(&image, "closed.image");
        let object = run(&["json", &file]);
        assert!(object.stdout.len() > 65_536, "a pipe holds the object");
        for line in lines(&file) {
            let ran = run_unread(command(&line));
            let is_reader = line.contains(&&file[..]);
            let status = if is_reader { status } else { 0 };
            assert_eq!(ran.stderr_text(), "", "{line:?}");
            assert_eq!(ran.status, Some(status), "{line:?}");
        }
    }
}

/// A refusal keeps its line and its status.
#[test]
fn closed_and_refused() {
    let mut image = large_image();
    image.sheet[0] = 0;
    let file = stored(&image, "closed_and_refused.image");
    let read = run(&["json", &file]);
    let ran = run_unread(command(&["json", &file]));
    assert_eq!(
        (ran.status, ran.stderr_text()),
        (Some(2), read.stderr_text())
    );
    assert!(ran.stderr_text().starts_with("combgallop: refused 1, "));
}

#[test]
fn full() {
    let file = stored(&large_image(), "full.image");
    for line in lines(&file) {
        let full = OpenOptions::new().write(true).open("/dev/full");
        let mut command = command(&line);
        command.stdout(Stdio::from(full.expect("a device that is full")));
        let ran = finish_writing_elsewhere(command, None);
        assert_wrong(&ran, &format!("{line:?}"));
    }
}
