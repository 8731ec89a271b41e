//! The object that the command writes is the one that the second program's answers make, with
//! every name of `docs/DESK.md` and no other.

use std::fmt::Display;

use differential::PROFILES;

use super::{difference, parse};
use crate::cases::draw;
use crate::counts::Counts;
use crate::expected::{json_object, json_refusal, open};
use crate::met::{note_dump, note_refusal, want_all};
use crate::question::{ask, refusal_line, Question};
use crate::run::Ran;

const CASES: u64 = 1_200;
const SEED: u64 = 0x1d0c_83f5;

/// The object, what standard error has to say, and the status.
fn compare(question: &Question, ran: &Ran, story: &dyn Display) {
    let (expected, error, status) = match open(question) {
        Ok(dump) => {
            let object = json_object(question, &dump);
            (object, String::new(), dump.status())
        }
        Err(refusal) => {
            let object = json_refusal(question, refusal);
            (object, refusal_line(refusal), 2)
        }
    };
    let text = std::str::from_utf8(&ran.stdout).expect("JSON is UTF-8");
    let found = parse(text).unwrap_or_else(|why| panic!("{why} in {text}\n{story}"));
    if let Some(difference) = difference(&found, &expected) {
        panic!("{difference}\n{story}");
    }
    assert!(text.ends_with("}\n"), "{story}");
    assert_eq!(ran.stderr_text(), error, "{story}");
    assert_eq!(ran.status, Some(status), "{story}");
}

#[test]
fn hurt_images() {
    let mut counts = Counts::default();
    for profile in PROFILES {
        for number in 0..CASES {
            let mut drawn = draw(profile, SEED, number);
            let question = drawn.question.clone();
            let ran = ask(&question, &["json"], "json", &mut drawn.sequence);
            compare(&question, &ran, &drawn);
            match open(&question) {
                Ok(dump) => note_dump(&mut counts, &question, &dump),
                Err(refusal) => note_refusal(&mut counts, profile, refusal),
            }
        }
    }
    counts.print("desk, json, hurt images", SEED);
    want_all(&counts);
}
