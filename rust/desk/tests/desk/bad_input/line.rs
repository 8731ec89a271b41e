//! Command lines that are wrong.

use std::ffi::{OsStr, OsString};
use std::os::unix::ffi::OsStrExt;
use std::path::Path;

use super::{assert_wrong, sound_file, READERS};
use crate::run::run;

/// Wrong, with a sound image wherever `FILE` stands.
const WRONG: [&[&str]; 50] = [
    // No command, and no such command.
    &[],
    &[""],
    &["-"],
    &["--"],
    &["FILE"],
    &["unknown"],
    &["unknown", "FILE"],
    &["Report", "FILE"],
    &["reports", "FILE"],
    &["--unknown"],
    &["-x"],
    &["--userland"],
    // No file, and two.
    &["report"],
    &["map"],
    &["json"],
    &["report", "--"],
    &["report", "--userland"],
    &["report", "--now", "5"],
    &["report", "FILE", "FILE"],
    &["map", "FILE", "FILE"],
    &["json", "FILE", "FILE"],
    &["report", "FILE", "-"],
    &["report", "FILE", "--", "FILE"],
    // Behind `--` nothing is an option.
    &["report", "FILE", "--", "--userland"],
    &["report", "--", "--now=5", "FILE"],
    // No such option.
    &["report", "--unknown", "FILE"],
    &["report", "FILE", "--unknown"],
    &["report", "FILE", "--unknown=5"],
    &["report", "FILE", "-x"],
    &["report", "FILE", "--Now", "5"],
    &["report", "FILE", "--no", "5"],
    &["report", "FILE", "--userland=yes"],
    &["report", "FILE", "--userland="],
    // Options of other commands.
    &["report", "FILE", "--svg", "-"],
    &["json", "FILE", "--svg", "-"],
    &["report", "FILE", "--svg=-"],
    &["explain", "28", "--userland"],
    &["explain", "28", "--now", "5"],
    &["explain", "28", "--svg", "-"],
    // No value.
    &["report", "FILE", "--now"],
    &["report", "FILE", "--magazines"],
    &["map", "FILE", "--svg"],
    // Twice.
    &["report", "--userland", "FILE", "--userland"],
    &["report", "--now", "5", "FILE", "--now", "5"],
    &["json", "--now=5", "FILE", "--now", "6"],
    &["map", "--magazines=FILE", "--magazines=FILE", "FILE"],
    &["map", "FILE", "--svg", "-", "--svg", "-"],
    // One input for two.
    &["report", "-", "--magazines", "-"],
    &["map", "--magazines=-", "-"],
    &["json", "--magazines", "-", "-", "--now", "5"],
];

fn with_file(arguments: &[&str], file: &Path) -> Vec<OsString> {
    let file = file.to_str().expect("a folder with a plain name");
    let arguments = arguments.iter();
    let arguments = arguments.map(|argument| argument.replace("FILE", file).into());
    arguments.collect()
}

#[test]
fn wrong_lines() {
    let file = sound_file("wrong_lines");
    for arguments in WRONG {
        let ran = run(&with_file(arguments, &file));
        assert_wrong(&ran, &format!("{arguments:?}"));
    }
}

/// The same image, and each option by itself, is not wrong.
#[test]
fn right_lines() {
    let file = sound_file("right_lines");
    for reader in READERS {
        let lines: [&[&str]; 6] = [
            &[reader, "FILE"],
            &[reader, "--", "FILE"],
            &[reader, "--now", "5", "FILE"],
            &[reader, "FILE", "--now=0xffffffff"],
            &[reader, "--now", "4294967295", "--", "FILE"],
            &[reader, "FILE", "--magazines", "/dev/null"],
        ];
        for arguments in lines {
            let ran = run(&with_file(arguments, &file));
            assert_eq!(ran.status, Some(0), "{arguments:?}");
            assert_eq!(ran.stderr_text(), "", "{arguments:?}");
            assert!(!ran.stdout.is_empty(), "{arguments:?}");
        }
    }
}

/// What is no uptime: no number, or not below 2^32.
#[test]
fn uptimes() {
    let file = sound_file("uptimes");
    let values = [
        "",
        "x",
        "now",
        "-1",
        "-",
        "--",
        "+5",
        "4294967296",
        "0x100000000",
        "99999999999999999999999999",
        "0xfffffffffffffffffffffffff",
        "0x",
        "0x+5",
        "0x-5",
        "0xg",
        "1.5",
        "1e3",
        "7000ms",
        "1 2",
        "0b1",
        "ff",
        "\u{664}",
    ];
    for reader in READERS {
        for value in values {
            let option = format!("--now={value}");
            let ran = run(&with_file(&[reader, "FILE", &option], &file));
            assert_wrong(&ran, &format!("{reader} {option}"));
            let ran = run(&with_file(&[reader, "FILE", "--now", value], &file));
            assert_wrong(&ran, &format!("{reader} --now {value}"));
        }
    }
}

/// What is the number of no verdict and of no refusal.
#[test]
fn explained_numbers() {
    let values = [
        "",
        "x",
        "-1",
        "14",
        "19",
        "33",
        "99",
        "256",
        "284",
        "4294967296",
        "28.0",
        "28 29",
        "free",
        "0x",
    ];
    for value in values {
        let ran = run(&["explain", value]);
        assert_wrong(&ran, &format!("explain {value:?}"));
    }
    let lines: [&[&str]; 3] = [&["explain"], &["explain", "28", "28"], &["explain", "--"]];
    for arguments in lines {
        assert_wrong(&run(arguments), &format!("{arguments:?}"));
    }
}

/// Arguments need not be UTF-8. As the name of a file such a one is as good as any other.
#[test]
fn arguments_of_any_bytes() {
    let file = sound_file("arguments_of_any_bytes");
    let any = OsStr::from_bytes(b"\xff\xfe");
    let option = OsStr::from_bytes(b"--\xff");
    let now = OsStr::from_bytes(b"--now=\xff");
    let report = OsStr::new("report");
    let lines: [&[&OsStr]; 8] = [
        &[any],
        &[option],
        &[any, file.as_ref()],
        &[report, any],
        &[report, file.as_ref(), option],
        &[report, file.as_ref(), now],
        &[report, file.as_ref(), OsStr::new("--now"), any],
        &[OsStr::new("explain"), any],
    ];
    for arguments in lines {
        assert_wrong(&run(arguments), &format!("{arguments:?}"));
    }
    let named = file.with_file_name(OsStr::from_bytes(b"named \xff\xfe.image"));
    std::fs::copy(&file, &named).expect("an image can be copied");
    let plain = run(&[report, file.as_ref()]);
    let ran = run(&[report, named.as_ref()]);
    assert_eq!((ran.status, ran.stdout), (Some(0), plain.stdout));
}
