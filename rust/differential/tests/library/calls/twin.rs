//! One image twice, for the reference and for the library, and what was done to it.

use std::fmt::{Display, Formatter, Result as Written};

use combgallop::{Answer, Refusal};
use differential::hurt::Hurt;
use differential::{Form, Image, Sequence};
use reference::{Order, SHORT_SHEET_LENGTH};

use super::call::{Accepted, Call};
use crate::counts::{Counts, Met};
use crate::expected::{expected_answer, expected_profile, expected_refusal};
use crate::lent::{Guarded, Lent};

enum Step {
    Call(Call),
    Hurt(&'static str),
    Shorten,
}

/// Where an image comes from, and all that was done to it since.
pub struct Story<'a> {
    origin: &'a dyn Display,
    steps: Vec<Step>,
}

impl Display for Story<'_> {
    fn fmt(&self, out: &mut Formatter) -> Written {
        writeln!(out, "{}", self.origin)?;
        for (number, step) in self.steps.iter().enumerate() {
            match step {
                Step::Call(call) => writeln!(out, "{number}: {call:x?}")?,
                Step::Hurt(name) => writeln!(out, "{number}: hurt, {name}")?,
                Step::Shorten => writeln!(out, "{number}: sheet cut to the short form")?,
            }
        }
        Ok(())
    }
}

pub struct Twin<'a> {
    /// What the reference works on.
    pub image: Image,
    /// What the library is lent: the same bytes, before and after each call.
    pub lent: Lent,
    pub story: Story<'a>,
}

impl<'a> Twin<'a> {
    pub fn new(image: Image, origin: &'a dyn Display, sequence: &mut Sequence) -> Twin<'a> {
        Twin {
            lent: Lent::new(&image, sequence),
            image,
            story: Story {
                origin,
                steps: Vec::new(),
            },
        }
    }

    /// Damage from outside.
    pub fn hurt(&mut self, (name, way): Hurt, sequence: &mut Sequence) {
        way(&mut self.image, sequence);
        self.lent = Lent::new(&self.image, sequence);
        self.story.steps.push(Step::Hurt(name));
    }

    /// Cuts the sheet of a high-first image to the short form, which means the same.
    pub fn shorten(&mut self, sequence: &mut Sequence) {
        assert_eq!(self.image.order(), Order::HighFirst);
        self.image.sheet.truncate(SHORT_SHEET_LENGTH);
        self.image.form = Form::short(self.image.profile());
        self.lent = Lent::new(&self.image, sequence);
        self.story.steps.push(Step::Shorten);
    }

    /// Makes a call by both, compares what they answer and every byte, and answers what
    /// the library did.
    pub fn run(
        &mut self,
        call: &Call,
        counts: &mut Counts,
        sequence: &mut Sequence,
    ) -> Result<u32, Refusal> {
        self.story.steps.push(Step::Call(call.clone()));
        let profile = call.profile(&self.image);
        let by_somebody = call.by_somebody();
        let by_somebody = by_somebody.map(|other| other.by_reference(&mut self.image.clone()));
        let expected = call.by_reference(&mut self.image);
        let bytes = Guarded::new(call.bytes(), sequence);
        let outcome = if sequence.once_in(4) {
            call.outcome(profile, &mut self.lent, bytes.part())
        } else {
            let answer = call.answer(profile, &mut self.lent, bytes.part());
            let expected = expected_bits(expected);
            assert_eq!(answer, expected, "answer to the last of {}", self.story);
            answer.value()
        };
        let expected = expected.map(|accepted| accepted.value);
        let expected = expected.map_err(expected_refusal);
        assert_eq!(outcome, expected, "outcome of the last of {}", self.story);
        assert!(bytes.holds(call.bytes()), "bytes differ: {}", self.story);
        self.lent.assert_holds(&self.image, &self.story);
        match *call {
            Call::LayOut(numbers) if outcome.is_ok() => {
                self.image.shape = numbers.into();
                self.image.form = numbers.form();
            }
            Call::Show { address } => self.compare_parts(address),
            _ => {}
        }
        self.note(call, outcome, counts);
        if let Some(other) = by_somebody {
            self.compare_nobody(call, outcome, other, counts);
        }
        outcome
    }

    /// "After 3 and before every other test": thread 0 is refused with 1, 2 or 3 just where
    /// another thread is, and else with 13, whatever the other is answered.
    fn compare_nobody(
        &self,
        call: &Call,
        outcome: Result<u32, Refusal>,
        other: Result<Accepted, reference::Refusal>,
        counts: &mut Counts,
    ) {
        let (number, detail) = match other {
            Ok(_) => (0, 0),
            Err(refusal) => (refusal.number, refusal.detail),
        };
        let expected = match number {
            1..=3 => number,
            _ => 13,
        };
        let outcome = outcome.map_err(Refusal::number);
        assert_eq!(outcome, Err(expected), "thread 0: {}", self.story);
        let met = Met::Nobody(call.name(), number, detail);
        counts.note(self.image.read_form(), met);
    }

    /// Notes an outcome: that of a lay out under the form asked for, and any other under
    /// the form of the sheet.
    fn note(&self, call: &Call, outcome: Result<u32, Refusal>, counts: &mut Counts) {
        let form = match call {
            Call::LayOut(numbers) => numbers.form(),
            _ => self.image.read_form(),
        };
        let met = match outcome {
            Ok(_) => Met::Accepted(call.name()),
            Err(refusal) => Met::Refused(call.name(), refusal.number(), refusal.detail()),
        };
        counts.note(form, met);
    }

    /// Both show the same part of the heap, or none.
    fn compare_parts(&self, address: u32) {
        let Image {
            sheet,
            heap,
            records,
            ..
        } = &self.image;
        let profile = self.image.profile();
        let expected = reference::show(profile, sheet, heap, records, address);
        let expected = expected.map(|shown| place(heap, shown.bytes));
        let expected = expected.map_err(expected_refusal);
        let (sheet, heap, records) = (&self.lent.sheet, &self.lent.heap, &self.lent.records);
        let (profile, heap) = (expected_profile(profile), heap.part());
        let shown = combgallop::show(profile, sheet.part(), heap, records.part(), address);
        let shown = shown.map(|part| place(heap, part));
        assert_eq!(shown, expected, "part shown: {}", self.story);
        self.lent.assert_holds(&self.image, &self.story);
    }
}

/// All 64 bits of a call's answer.
fn expected_bits(answer: Result<Accepted, reference::Refusal>) -> Answer {
    let start = answer.map_or(0, |accepted| accepted.start);
    let Answer(bits) = expected_answer(answer.map(|accepted| accepted.value));
    Answer(bits | u64::from(start) << 16)
}

/// Where a part of an area starts, and its length.
fn place(area: &[u8], part: &[u8]) -> (usize, usize) {
    let start = part.as_ptr() as usize - area.as_ptr() as usize;
    (start, part.len())
}
