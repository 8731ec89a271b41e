//! The images that the command is asked about, with the story of each.

use std::fmt::{Display, Formatter, Result};

use differential::hurt::{Hurt, HURTS};
use differential::latest::some_now;
use differential::magazines::{EMPTY, LISTS};
use differential::{sound_image, Case, Image, Sequence};
use reference::Profile;

use crate::question::Question;

/// The hurts after which an image is not refused: they leave the sheet and all lengths.
const KEEPING: [&str; 7] = [
    "pairing:",
    "chain:",
    "tag:",
    "free:",
    "allocated:",
    "header:",
    "stamp:",
];

/// An image of a seed, by its profile and number, the question about it, and the sequence from
/// which the rest of its test is drawn.
pub struct Drawn {
    seed: u64,
    number: u64,
    list: &'static str,
    hurts: Vec<&'static str>,
    pub image: Image,
    pub question: Question,
    pub sequence: Sequence,
}

impl Display for Drawn {
    fn fmt(&self, out: &mut Formatter) -> Result {
        let (seed, number, list) = (self.seed, self.number, self.list);
        let now = self.question.now;
        let is_listed = self.question.magazines.is_some();
        writeln!(
            out,
            "seed {seed:#x} case {number}: {list}, {:?}",
            self.hurts
        )?;
        writeln!(out, "list given: {is_listed}, now: {now:?}")?;
        write!(out, "{}", self.image)
    }
}

/// An image that is hurt anyhow, and may be refused; or one with a crowd of hurts, which is
/// not refused.
pub fn draw(profile: Profile, seed: u64, number: u64) -> Drawn {
    if number.is_multiple_of(2) {
        return draw_crowd(profile, seed, number);
    }
    let (case, sequence) = Case::listed(profile, seed, number);
    let Case {
        list, hurts, image, ..
    } = case;
    drawn(seed, number, list, hurts, image, sequence)
}

/// An image with up to a dozen hurts, so that many kinds of faults stand beside each other.
pub fn draw_crowd(profile: Profile, seed: u64, number: u64) -> Drawn {
    let mut sequence = Sequence::new(Sequence::new(seed).number() ^ number);
    let mut image = sound_image(profile, &mut sequence);
    let list = some_list(&mut image, &mut sequence);
    let ways = HURTS.iter().copied();
    let ways = ways.filter(|(name, _)| KEEPING.iter().any(|start| name.starts_with(start)));
    let ways: Vec<Hurt> = ways.collect();
    let mut hurts = Vec::new();
    for _ in 0..sequence.between(1, 12) {
        let (name, way) = sequence.pick(&ways);
        way(&mut image, &mut sequence);
        hurts.push(name);
    }
    drawn(seed, number, list, hurts, image, sequence)
}

/// Lists nothing, or draws a list that is not refused, and answers its name.
fn some_list(image: &mut Image, sequence: &mut Sequence) -> &'static str {
    if sequence.once_in(4) {
        return EMPTY;
    }
    let (name, way) = sequence.pick(&LISTS);
    way(image, sequence);
    name
}

/// The question about an image: mostly with its list, and with an uptime as often as without.
fn drawn(
    seed: u64,
    number: u64,
    list: &'static str,
    hurts: Vec<&'static str>,
    image: Image,
    mut sequence: Sequence,
) -> Drawn {
    let is_listed = match image.magazines.len() {
        0 => sequence.once_in(2),
        _ => !sequence.once_in(6),
    };
    let has_now = sequence.once_in(2);
    let question = Question {
        profile: image.profile(),
        input: image.input(),
        magazines: is_listed.then(|| image.magazines.clone()),
        now: has_now.then(|| some_now(&image, &mut sequence)),
    };
    Drawn {
        seed,
        number,
        list,
        hurts,
        image,
        question,
        sequence,
    }
}
