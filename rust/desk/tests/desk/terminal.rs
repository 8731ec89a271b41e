//! The colours of `map`: on a terminal, unless the environment says no.

use std::process::{Command, Stdio};

use differential::PROFILES;
use reference::Profile;

use crate::cases::draw_crowd;
use crate::counts::{profile_name, Counts, PROFILES as PROFILE_NAMES};
use crate::expected::{cell, map_text, open, Dump};
use crate::question::{scratch, Question};
use crate::run::{finish, Ran, PROGRAM};

const CASES: u64 = 40;
const SEED: u64 = 0x2e61_7c04;

/// The start of every change of colours.
const ESCAPE: char = '\u{1b}';

/// A sign as a terminal shows it, with its colour.
type Sign = (char, Option<u32>);

/// Runs `map` where standard output is a terminal, whose lines end with both signs.
fn run_on_terminal(question: &Question, name: &str, no_color: Option<&str>) -> Ran {
    let file = scratch(&format!("{name}.image"));
    std::fs::write(&file, &question.input).expect("an image can be written");
    let mut line = format!("'{PROGRAM}' map '{}'", file.display());
    if question.profile == Profile::Userland {
        line += " --userland";
    }
    if let Some(words) = &question.magazines {
        let list = file.with_extension("magazines");
        let text: String = words.iter().map(|word| format!("{word}\n")).collect();
        std::fs::write(&list, text).expect("a list can be written");
        line += &format!(" --magazines '{}'", list.display());
    }
    let mut command = Command::new("script");
    command.args(["-qec", &line, "/dev/null"]);
    command.env("SHELL", "/bin/sh").env("TERM", "xterm");
    match no_color {
        Some(value) => command.env("NO_COLOR", value),
        None => command.env_remove("NO_COLOR"),
    };
    command.stdin(Stdio::null());
    finish(command, None)
}

/// What a terminal shows: the signs, each with the colour that was last asked for.
fn shown(text: &str) -> Vec<Sign> {
    let mut signs = Vec::new();
    let mut colour = None;
    let mut rest = text;
    while let Some(sign) = rest.chars().next() {
        rest = &rest[sign.len_utf8()..];
        if sign != ESCAPE {
            signs.push((sign, colour));
            continue;
        }
        let (numbers, behind) = rest.split_once('m').expect("a colour ends with m");
        let numbers = numbers.strip_prefix('[').expect("a colour starts with [");
        colour = numbers.split(';').fold(colour, changed);
        rest = behind;
    }
    signs
}

/// The colour after one number: the eight of them plain or bright, or none again. Numbers such
/// as that of bold leave it.
fn changed(colour: Option<u32>, number: &str) -> Option<u32> {
    match number.parse().unwrap_or(0) {
        0 | 39 => None,
        number @ (30..=37 | 90..=97) => Some(number % 10),
        _ => colour,
    }
}

/// Free green, cached cyan, allocated blue, faults red.
fn colour_of(cell: &str) -> u32 {
    match cell.chars().next() {
        Some('f') => 2,
        Some('c') => 6,
        Some('w' | 'a') => 4,
        _ => 1,
    }
}

/// The colour of every cell, and of no address.
fn assert_colours(dump: &Dump, signs: &[Sign], counts: &mut Counts) {
    let lines: Vec<&[Sign]> = signs.split(|(sign, _)| *sign == '\n').collect();
    for index in 0..dump.count() {
        let line = lines[1 + index / 8];
        let start = 12 + index % 8 * 8;
        let cell = cell(dump, index);
        let wanted = cell.chars().map(|sign| (sign, Some(colour_of(&cell))));
        let wanted: Vec<Sign> = wanted.collect();
        assert_eq!(line[start..start + cell.len()], wanted, "buffer {index}");
        counts.note(
            profile_name(dump.profile),
            format!("colour {}", colour_of(&cell)),
        );
        let is_plain = line[..10].iter().all(|(_, colour)| colour.is_none());
        assert!(is_plain, "the address of a line has a colour");
    }
}

/// A crowd of hurts, with its list.
fn crowd(profile: Profile, number: u64) -> (Question, Dump) {
    let drawn = draw_crowd(profile, SEED, number);
    let mut question = Question::plain(profile, drawn.question.input);
    question.magazines = Some(drawn.image.magazines);
    let dump = open(&question).expect("a crowd is not refused");
    (question, dump)
}

fn terminal_text(dump: &Dump) -> String {
    map_text(dump).replace('\n', "\r\n")
}

#[test]
fn colours() {
    let mut counts = Counts::default();
    for profile in PROFILES {
        for number in 0..CASES {
            let (question, dump) = crowd(profile, number);
            let ran = run_on_terminal(&question, "colours", None);
            let signs = shown(&ran.stdout_text());
            let text: String = signs.iter().map(|(sign, _)| sign).collect();
            assert_eq!(text, terminal_text(&dump), "case {number}");
            assert_eq!(ran.status, Some(dump.status()), "case {number}");
            assert_colours(&dump, &signs, &mut counts);
        }
    }
    counts.print("desk, colours, crowds of hurts", SEED);
    let colours = ["colour 1", "colour 2", "colour 4", "colour 6"];
    counts.want(&PROFILE_NAMES, &colours);
}

/// Without colours where `NO_COLOR` is not empty, whatever it is, and with them where it is.
#[test]
fn no_colours() {
    for profile in PROFILES {
        let (question, dump) = crowd(profile, 0);
        for value in ["1", "0", "no"] {
            let ran = run_on_terminal(&question, "no_colours", Some(value));
            assert_eq!(ran.stdout_text(), terminal_text(&dump), "NO_COLOR={value}");
            assert_eq!(ran.status, Some(dump.status()));
        }
        let ran = run_on_terminal(&question, "no_colours", Some(""));
        assert!(ran.stdout_text().contains(ESCAPE), "NO_COLOR is empty");
    }
}
