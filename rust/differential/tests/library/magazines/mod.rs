//! Magazine lists that are held to their rules and not to the reference alone. All three readers
//! are asked.

mod lines;
mod refusals;
mod standing;
mod words;

use std::fmt::Display;

use differential::{Image, Sequence};
use reference::{Finding, Refusal};

use crate::counts::{Counts, Met};
use crate::inspect::note_list;
use crate::survey::Room;
use crate::{inspect, report, survey};

const SEED: u64 = 0x27c1_8d5a;

/// What a run of these tests needs.
struct Run {
    sequence: Sequence,
    counts: Counts,
}

impl Run {
    fn new() -> Run {
        Run {
            sequence: Sequence::new(SEED),
            counts: Counts::default(),
        }
    }

    /// Asks every reader, each with enough room, and answers the verdicts' numbers. All of
    /// them refuse alike.
    fn verdicts(&mut self, image: &Image, story: &dyn Display) -> Result<Vec<u32>, Refusal> {
        let sequence = &mut self.sequence;
        let rows = 3 * image.shape.count;
        let found = inspect::compare(image, rows, sequence, story);
        note_list(&mut self.counts, image, rows, &found);
        inspect::note(&mut self.counts, image, found.clone());
        let room = Room { rows, chain: 3 };
        let surveyed = survey::compare(image, room, sequence, story).map(|_| ());
        let text = report::compare(image, 16_384, sequence, story).map(|_| ());
        let refused = found.as_ref().err().copied();
        assert_eq!(surveyed.err(), refused, "survey, {story}");
        assert_eq!(text.err(), refused, "report, {story}");
        let numbers = |findings: Vec<_>| findings.iter().map(number).collect();
        found.map(numbers)
    }

    fn finish(&self, title: &str, wanted: &[Met]) {
        self.counts.finish(title, SEED, wanted);
    }
}

fn number(finding: &Finding) -> u32 {
    finding.verdict.number()
}

fn refused(number: u8) -> Refusal {
    Refusal { number, detail: 0 }
}
