//! Calls on hurt images, and lists with damage between the calls.

use differential::hurt::{HEAD_HURTS, HURTS};
use differential::{Case, Sequence, LONG_FORMS, PROFILES};

use super::draw::{some_call, some_lay_out};
use super::twin::Twin;
use super::{answers, header_answers, nobody};
use crate::counts::{Counts, Met};

const CASES: u64 = 40_000;
const CALLS: usize = 12;
const SEED: u64 = 0x2f70_c8a3;

/// Makes a few calls, most often after damage to the chain's first record or buffer;
/// now and then more damage comes between two calls.
fn run(case: &Case, counts: &mut Counts, sequence: &mut Sequence) {
    let mut twin = Twin::new(case.image.clone(), case, sequence);
    let eagerness = sequence.pick(&[4, 8, 16]);
    for _ in 0..CALLS {
        match sequence.below(16) {
            0 => {
                let hurt = sequence.pick(&HURTS);
                twin.hurt(hurt, sequence);
                counts.note(twin.image.form, Met::Hurt(hurt.0));
            }
            1..=3 => {
                let hurt = sequence.pick(&HEAD_HURTS);
                twin.hurt(hurt, sequence);
                counts.note(twin.image.form, Met::Hurt(hurt.0));
            }
            _ => {}
        }
        let call = if sequence.once_in(32) {
            some_lay_out(&twin.image, sequence)
        } else {
            some_call(&twin.image, eagerness, sequence)
        };
        // Any answer will do that both give.
        let _ = twin.run(&call, counts, sequence);
    }
}

#[test]
fn calls_on_hurt_images() {
    let mut counts = Counts::default();
    for profile in PROFILES {
        for number in 0..CASES {
            let (case, mut sequence) = Case::new(profile, SEED, number);
            run(&case, &mut counts, &mut sequence);
        }
    }
    let hurts = HURTS.iter().chain(&HEAD_HURTS);
    let hurts: Vec<Met> = hurts.map(|&(name, _)| Met::Hurt(name)).collect();
    let calls = ["allocate", "free", "store", "show"];
    let nobodys = ["allocate", "free"].map(nobody).concat();
    let wanted = [calls.map(answers).concat(), nobodys, hurts].concat();
    let in_userland = [header_answers(), vec![Met::Nobody("free", 7, 30)]].concat();
    let title = "calls, hurt images";
    counts.finish_with(title, SEED, &wanted, &in_userland);
    counts.want(&LONG_FORMS, title, &answers("lay out"));
}
