//! One image twice, for the reference and for the C, and what was done to it.

use std::fmt::{Display, Formatter, Result as Written};

use differential::hurt::Hurt;
use differential::{Image, Sequence};

use crate::counts::{accepted, hurt, Counts};
use crate::draw::Call;
use crate::lent::{expected_answer, Areas};

/// Where an image comes from, and all that was done to it since.
struct Story<'a> {
    origin: &'a dyn Display,
    steps: Vec<String>,
}

impl Display for Story<'_> {
    fn fmt(&self, out: &mut Formatter) -> Written {
        writeln!(out, "{}", self.origin)?;
        for step in &self.steps {
            writeln!(out, "then {step}")?;
        }
        Ok(())
    }
}

pub struct Twin<'a> {
    /// What the reference works on.
    pub image: Image,
    /// What the C is lent: the same bytes, before and after each call.
    lent: Areas,
    story: Story<'a>,
}

impl<'a> Twin<'a> {
    pub fn new(image: Image, origin: &'a dyn Display, sequence: &mut Sequence) -> Twin<'a> {
        Twin {
            lent: Areas::new(&image, sequence),
            image,
            story: Story {
                origin,
                steps: Vec::new(),
            },
        }
    }

    /// Damage from outside.
    pub fn hurt(&mut self, (name, way): Hurt, counts: &mut Counts, sequence: &mut Sequence) {
        way(&mut self.image, sequence);
        self.lent = Areas::new(&self.image, sequence);
        self.story.steps.push(hurt(name));
        counts.note(self.image.form, hurt(name));
    }

    /// Makes a call by both, and compares what they answer and every byte.
    pub fn run(&mut self, call: Call, counts: &mut Counts) {
        self.story.steps.push(format!("{call:x?}"));
        let expected = call.by_reference(&mut self.image);
        let answer = call.in_plain_c(&mut self.lent);
        let expected_answer = expected_answer(expected);
        assert_eq!(answer, expected_answer, "the last of {}", self.story);
        self.lent.assert_hold(&self.image, &self.story);
        match expected {
            Ok(_) => counts.note(self.image.form, accepted(call.name())),
            Err(refused) => counts.note_refusal(self.image.form, call.name(), refused),
        }
    }
}
