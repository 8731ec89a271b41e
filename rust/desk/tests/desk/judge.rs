//! The proved report program is the judge of last resort: its text and the lines of the
//! command's report say the same.

use std::path::{Path, PathBuf};
use std::process::Command;

use differential::PROFILES;

use crate::cases::draw;
use crate::counts::{Counts, PROFILES as PROFILE_NAMES};
use crate::question::{scratch, Question};
use crate::run::{finish, run, Feed};

const CASES: u64 = 200;
const SEED: u64 = 0x29e6_b01d;

fn proved_program() -> PathBuf {
    let repository = Path::new(env!("CARGO_MANIFEST_DIR")).join("../..");
    let program = repository.join("target/bin/heap_report");
    let place = program.display();
    assert!(
        program.is_file(),
        "{place} is missing: run `tools/build` first"
    );
    program
}

/// What the proved program writes.
fn judged(question: &Question) -> String {
    let input = question.input.clone();
    let feed: Feed = Box::new(move |mut pipe| {
        let _ = std::io::Write::write_all(&mut pipe, &input);
    });
    let ran = finish(Command::new(proved_program()), Some(feed));
    ran.stdout_text()
}

/// Each line of the one starts a line of the other, and behind it comes a space or nothing.
fn assert_same_lines(judged: &str, report: &str, story: &str) {
    let count = judged.lines().count();
    let found: Vec<&str> = report.lines().take(count).collect();
    assert_eq!(found.len(), count, "{story}");
    for (judged, found) in judged.lines().zip(found) {
        let rest = found.strip_prefix(judged);
        let is_same = rest.is_some_and(|rest| rest.is_empty() || rest.starts_with(' '));
        assert!(is_same, "{found:?} and not {judged:?}\n{story}");
    }
}

/// The program reads every image as a kernel's and with an empty list, so the command is asked
/// so too.
#[test]
fn hurt_images() {
    let mut counts = Counts::default();
    let file = scratch("judge.image");
    let name = file.to_str().expect("a folder with a plain name");
    for (profile, place) in PROFILES.into_iter().zip(PROFILE_NAMES) {
        for number in 0..CASES {
            let drawn = draw(profile, SEED, number);
            std::fs::write(&file, &drawn.question.input).expect("an image can be written");
            let judged = judged(&drawn.question);
            let ran = run(&["report", name]);
            match judged.trim_end().strip_prefix("refused ") {
                Some(why) => {
                    let line = format!("combgallop: refused {why}, ");
                    assert!(ran.stderr_text().starts_with(&line), "{drawn}");
                    assert_eq!(ran.status, Some(2), "{drawn}");
                    counts.note(place, "refused");
                }
                None => {
                    assert_same_lines(&judged, &ran.stdout_text(), &drawn.to_string());
                    counts.note(place, "reported");
                }
            }
        }
    }
    counts.print("desk and the proved program, hurt images", SEED);
    counts.want(&PROFILE_NAMES, &["refused", "reported"]);
}
