//! Magazine lists that are no lists of numbers, and some that are.

use std::path::Path;

use differential::samples::dump;
use differential::Form;
use reference::Profile;

use super::{assert_wrong, sound_file, READERS};
use crate::expected::report_text;
use crate::question::{scratch, Question};
use crate::report::compare;
use crate::run::{run, run_fed};

/// Texts that have a word which is no number, or a number that takes more than 32 bits.
const WRONG: [&[u8]; 21] = [
    b"x",
    b"0x",
    b"-1",
    b"+16",
    b"0x+16",
    b"4294967296",
    b"0x100000000",
    b"99999999999999999999999999",
    b"0x70a9add8,",
    b"0x70a9add8;0x70a9ae00",
    b"0x70a9addg",
    b"70a9add8",
    b"1.0",
    b"1e3",
    b"0x70a9add8\nbuffer\n",
    b"# a comment ends with its line\nx",
    b"0x70a9add8 // 1",
    b"\xff\xfe",
    b"12\xff",
    b"\x00",
    b"0x70a9add8\x00",
];

#[test]
fn wrong_lists() {
    let image = sound_file("wrong_lists");
    let list = scratch("wrong_lists.magazines");
    for text in WRONG {
        std::fs::write(&list, text).expect("a list can be written");
        for reader in READERS {
            let option = Path::new("--magazines");
            let ran = run(&[Path::new(reader), &image, option, &list]);
            let text = text.escape_ascii();
            assert_wrong(&ran, &format!("{reader} with the list \"{text}\""));
        }
    }
}

/// Texts of lists, and their words. In the dump buffers 0 and 2 are free and on the chain.
#[test]
fn right_lists() {
    const FIRST: u32 = 0x70a9_add8;
    const LAST: u32 = FIRST + 80;
    let lists: [(&str, &[u32]); 10] = [
        ("", &[]),
        (" \t\r\n\n", &[]),
        ("#", &[]),
        ("# 0x70a9add8", &[]),
        ("0x70a9add8", &[FIRST]),
        ("\t1890168280 ", &[FIRST]),
        ("0x70A9ADD8# the first\n0x70a9ae28", &[FIRST, LAST]),
        ("0x70a9ae28\r\n# 12\r\n0x70a9add8\r\n", &[LAST, FIRST]),
        ("0x70a9ae28 0x70a9add8\n0x0070a9add8", &[LAST, FIRST, FIRST]),
        ("1 #2 3\n4", &[1, 4]),
    ];
    let image = sound_file("right_lists");
    let file = scratch("right_lists.magazines");
    for (text, words) in lists {
        std::fs::write(&file, text).expect("a list can be written");
        let mut question = Question::plain(Profile::Kernel, dump(Form::Short).input());
        question.magazines = Some(words.to_vec());
        let (report, option) = (Path::new("report"), Path::new("--magazines"));
        let ran = run(&[report, option, &file, &image]);
        compare(&question, &ran, report_text, &text);
        // `-` is standard input for a list as it is for an image.
        let ran = run_fed(&[report, &image, option, Path::new("-")], text.into());
        compare(&question, &ran, report_text, &text);
    }
}

/// The most bytes that a list may have.
const MOST: usize = 16 << 20;

/// White space alone: of so many bytes as a list may have it is a list of no words, and of one
/// more it is none.
#[test]
fn longest_list() {
    let image = sound_file("longest_list");
    let file = scratch("longest_list.magazines");
    let line = [Path::new("json"), &image, Path::new("--magazines"), &file];
    std::fs::write(&file, vec![b' '; MOST]).expect("a list can be written");
    let ran = run(&line);
    assert_eq!((ran.status, ran.stderr_text().as_str()), (Some(0), ""));
    std::fs::write(&file, vec![b' '; MOST + 1]).expect("a list can be written");
    assert_wrong(&run(&line), "a list of more than 16 MiB");
    std::fs::remove_file(&file).expect("a list can be removed");
}
