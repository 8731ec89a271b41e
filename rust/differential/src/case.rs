//! An image with its story, to be told when two programs disagree on it.

use std::fmt::{Display, Formatter, Result};

use reference::Profile;

use crate::hurt::hurt;
use crate::magazines::{list, EMPTY};
use crate::{sound_image, Image, Sequence};

/// The most bytes of an area, and words of a list, that are written out in full.
const MOST_WRITTEN: usize = 4096;

/// One image of a seed, by its profile and number.
pub struct Case {
    seed: u64,
    number: u64,
    /// The kind of its magazine list.
    pub list: &'static str,
    pub hurts: Vec<&'static str>,
    pub image: Image,
}

impl Case {
    /// The image, with an empty magazine list, and the sequence from which the rest of its
    /// test is drawn. No case depends on those before it.
    pub fn new(profile: Profile, seed: u64, number: u64) -> (Case, Sequence) {
        Case::with(profile, seed, number, |_, _| EMPTY)
    }

    /// The same with a magazine list of some kind.
    pub fn listed(profile: Profile, seed: u64, number: u64) -> (Case, Sequence) {
        Case::with(profile, seed, number, list)
    }

    /// The list is drawn for the sound image: a hurt may then hit what is in a magazine.
    fn with(
        profile: Profile,
        seed: u64,
        number: u64,
        list: fn(&mut Image, &mut Sequence) -> &'static str,
    ) -> (Case, Sequence) {
        let mut sequence = Sequence::new(Sequence::new(seed).number() ^ number);
        let mut image = sound_image(profile, &mut sequence);
        let list = list(&mut image, &mut sequence);
        let hurts = hurt(&mut image, &mut sequence);
        let case = Case {
            seed,
            number,
            list,
            hurts,
            image,
        };
        (case, sequence)
    }
}

impl Display for Case {
    fn fmt(&self, out: &mut Formatter) -> Result {
        let Case {
            seed, number, list, ..
        } = self;
        writeln!(out, "seed {seed} case {number}: {list}, {:?}", self.hurts)?;
        write!(out, "{}", self.image)
    }
}

impl Display for Image {
    fn fmt(&self, out: &mut Formatter) -> Result {
        writeln!(out, "{:?} {:x?}", self.form, self.shape)?;
        let areas = [
            ("sheet", &self.sheet),
            ("heap", &self.heap),
            ("records", &self.records),
            ("log", &self.log),
        ];
        for (name, area) in areas {
            write!(out, "{name}, {} bytes:", area.len())?;
            for byte in &area[..area.len().min(MOST_WRITTEN)] {
                write!(out, " {byte:02x}")?;
            }
            writeln!(out)?;
        }
        let words = &self.magazines[..self.magazines.len().min(MOST_WRITTEN)];
        let length = self.magazines.len();
        writeln!(out, "magazines, {length} words: {words:x?}")
    }
}
