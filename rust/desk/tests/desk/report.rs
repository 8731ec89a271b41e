//! `report`, byte for byte.

use std::fmt::Display;

use differential::PROFILES;

use crate::cases::draw;
use crate::counts::Counts;
use crate::expected::{open, report_text, Dump};
use crate::met::{note_dump, note_refusal, want_all};
use crate::question::{ask, refusal_line, Question};
use crate::run::Ran;

const CASES: u64 = 1_200;
const SEED: u64 = 0x6b2a_90de;

/// Fails unless the command has written this text, with the status of the image; or has
/// written why the image is refused, and nothing else.
pub fn compare(question: &Question, ran: &Ran, text: fn(&Dump) -> String, story: &dyn Display) {
    let (expected, error, status) = match open(question) {
        Ok(dump) => (text(&dump), String::new(), dump.status()),
        Err(refusal) => (String::new(), refusal_line(refusal), 2),
    };
    assert_eq!(ran.stdout_text(), expected, "{story}");
    assert_eq!(ran.stderr_text(), error, "{story}");
    assert_eq!(ran.status, Some(status), "{story}");
}

#[test]
fn hurt_images() {
    let mut counts = Counts::default();
    for profile in PROFILES {
        for number in 0..CASES {
            let mut drawn = draw(profile, SEED, number);
            let question = drawn.question.clone();
            let ran = ask(&question, &["report"], "report", &mut drawn.sequence);
            compare(&question, &ran, report_text, &drawn);
            match open(&question) {
                Ok(dump) => note_dump(&mut counts, &question, &dump),
                Err(refusal) => note_refusal(&mut counts, profile, refusal),
            }
        }
    }
    counts.print("desk, report, hurt images", SEED);
    want_all(&counts);
}
