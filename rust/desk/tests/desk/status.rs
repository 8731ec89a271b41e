//! The exit status, of each command that reads an image, by the second program's answers.

use differential::chain::{met, put_next};
use differential::{sound_image, Image, Sequence, PROFILES};
use reference::Ending;

use crate::cases::draw;
use crate::counts::{profile_name, Counts, PROFILES as PROFILE_NAMES};
use crate::expected::open;
use crate::question::{ask, Question};

const CASES: u64 = 150;
const SEED: u64 = 0x0f35_d2a7;

/// Every way to ask.
const WAYS: [&[&str]; 4] = [&["report"], &["map"], &["map", "--svg=-"], &["json"]];

fn expected(question: &Question) -> i32 {
    open(question).map_or(2, |dump| dump.status())
}

#[test]
fn hurt_images() {
    let mut counts = Counts::default();
    for profile in PROFILES {
        for number in 0..CASES {
            let mut drawn = draw(profile, SEED, number);
            let question = drawn.question.clone();
            let status = expected(&question);
            counts.note(profile_name(profile), format!("status {status}"));
            for way in WAYS {
                let ran = ask(&question, way, "status", &mut drawn.sequence);
                assert_eq!(ran.status, Some(status), "{way:?}\n{drawn}");
                assert_eq!(ran.stderr.is_empty(), status < 2, "{way:?}\n{drawn}");
            }
        }
    }
    counts.print("desk, status, hurt images", SEED);
    counts.want(&PROFILE_NAMES, &["status 0", "status 1", "status 2"]);
}

/// The chain's last word leads to no record. Every buffer is as it was.
fn break_end(image: &mut Image) {
    const NO_RECORD: u32 = 4;
    match met(image).last() {
        Some(&last) => put_next(image, last, NO_RECORD),
        None => image.put_head(NO_RECORD),
    }
}

/// No fault alone is not sound: the chain has to end.
#[test]
fn chain_alone() {
    let mut sequence = Sequence::new(SEED);
    for profile in PROFILES {
        for _ in 0..20 {
            let mut image = sound_image(profile, &mut sequence);
            let sound = Question::plain(profile, image.input());
            break_end(&mut image);
            let broken = Question::plain(profile, image.input());
            let dump = open(&broken).expect("an image that is not refused");
            assert_eq!((dump.faults(), dump.chain.ending), (0, Ending::Broken));
            for way in WAYS {
                let ran = ask(&sound, way, "chain_alone", &mut sequence);
                assert_eq!(ran.status, Some(0), "{way:?}\n{image}");
                let ran = ask(&broken, way, "chain_alone", &mut sequence);
                assert_eq!(ran.status, Some(1), "{way:?}\n{image}");
            }
        }
    }
}
