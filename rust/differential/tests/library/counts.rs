//! What a run met, under each profile and in each form of the sheet, so that no rule goes
//! untested unnoticed.

use std::collections::BTreeMap;
use std::fmt::{Display, Formatter, Result};

use differential::{Form, Image, FORMS, USER_FORMS};
use reference::Ending;

/// A thing that a run can meet.
#[derive(Clone, Copy, PartialEq, Eq, PartialOrd, Ord, Debug)]
pub enum Met {
    Verdict(u32),
    /// A refusal's number and detail.
    Refusal(u8, u8),
    /// How a chain stops.
    Chain(&'static str),
    /// The end of what is lawful for a number of the sheet.
    Extreme(&'static str, usize),
    /// What the latest transaction was chosen from, or is.
    Latest(&'static str),
    Hurt(&'static str),
    /// The kind of a magazine list.
    List(&'static str),
    /// A verdict on a buffer that is listed so often: once, or 2 for twice or more.
    Listed(usize, u32),
    /// How a buffer with a right tag stands: its pattern, whether the chain meets its record,
    /// and how often it is listed, 2 for twice or more.
    Stands(&'static str, bool, usize),
    /// A call that was accepted, by its name.
    Accepted(&'static str),
    /// A call that was refused, with the refusal's number and detail.
    Refused(&'static str, u8, u8),
    /// A call of thread 0, with the refusal's number and detail that any other thread is
    /// given instead, both 0 where that is accepted.
    Nobody(&'static str, u8, u8),
    /// What a list of calls came to, or how arguments and rooms were drawn.
    Drawn(&'static str),
}

/// Every verdict there is under both profiles.
pub const VERDICTS: [Met; 15] = [
    Met::Verdict(0),
    Met::Verdict(1),
    Met::Verdict(2),
    Met::Verdict(3),
    Met::Verdict(20),
    Met::Verdict(21),
    Met::Verdict(22),
    Met::Verdict(23),
    Met::Verdict(24),
    Met::Verdict(25),
    Met::Verdict(26),
    Met::Verdict(27),
    Met::Verdict(28),
    Met::Verdict(31),
    Met::Verdict(32),
];

/// The verdict that userland alone has.
pub const HEADER_VERDICT: Met = Met::Verdict(30);

/// The ends of what is lawful.
pub const EXTREMES: [Met; 5] = [
    Met::Extreme("buffer size", 8),
    Met::Extreme("buffer size", 4096),
    Met::Extreme("count", 1),
    Met::Extreme("count", 512),
    Met::Extreme("heap area", 65_536),
];

/// Every way a chain stops.
pub const ENDINGS: [Met; 3] = [Met::Chain("end"), Met::Chain("broken"), Met::Chain("again")];

/// The refusals that inspect, survey and report can give, by the rules.
pub const READ_REFUSALS: [Met; 5] = [
    Met::Refusal(1, 0),
    Met::Refusal(2, 0),
    Met::Refusal(3, 0),
    Met::Refusal(4, 0),
    Met::Refusal(11, 0),
];

impl Met {
    pub fn chain(ending: Ending) -> Met {
        Met::Chain(match ending {
            Ending::End => "end",
            Ending::Broken => "broken",
            Ending::Again(_) => "again",
        })
    }
}

impl Display for Met {
    fn fmt(&self, out: &mut Formatter) -> Result {
        match self {
            Met::Verdict(number) => write!(out, "verdict {number}"),
            Met::Refusal(number, 0) => write!(out, "refusal {number}"),
            Met::Refusal(number, detail) => write!(out, "refusal {number}/{detail}"),
            Met::Chain(ending) => write!(out, "chain {ending}"),
            Met::Extreme(what, number) => write!(out, "{what} {number}"),
            Met::Latest(what) => write!(out, "{what}"),
            Met::Hurt(name) => write!(out, "hurt: {name}"),
            Met::List(kind) => write!(out, "{kind}"),
            Met::Listed(times, number) => write!(out, "listed {times} times, verdict {number}"),
            Met::Stands(pattern, true, times) => {
                write!(out, "{pattern} pattern on the chain, listed {times} times")
            }
            Met::Stands(pattern, false, times) => {
                write!(out, "{pattern} pattern off the chain, listed {times} times")
            }
            Met::Accepted(call) => write!(out, "{call} accepted"),
            Met::Refused(call, number, 0) => write!(out, "{call} refused {number}"),
            Met::Refused(call, number, detail) => {
                write!(out, "{call} refused {number}/{detail}")
            }
            Met::Nobody(call, 0, 0) => write!(out, "{call} of thread 0, else accepted"),
            Met::Nobody(call, number, detail) => {
                write!(out, "{call} of thread 0, else refused {number}/{detail}")
            }
            Met::Drawn(what) => write!(out, "drawn: {what}"),
        }
    }
}

/// How often each thing was met, by the profile and the form of the sheet at hand.
#[derive(Default)]
pub struct Counts(BTreeMap<(Met, Form), usize>);

impl Counts {
    pub fn note(&mut self, form: Form, met: Met) {
        *self.0.entry((met, form)).or_default() += 1;
    }

    pub fn note_refusal(&mut self, form: Form, refusal: reference::Refusal) {
        self.note(form, Met::Refusal(refusal.number, refusal.detail));
    }

    /// Notes the numbers of an image that are at an end of what is lawful.
    pub fn note_extremes(&mut self, image: &Image) {
        let numbers = [
            Met::Extreme("buffer size", image.shape.size),
            Met::Extreme("count", image.shape.count),
            Met::Extreme("heap area", image.heap.len()),
        ];
        for number in numbers.iter().filter(|number| EXTREMES.contains(number)) {
            self.note(image.read_form(), *number);
        }
    }

    /// Prints the counts, and fails where a thing that can be met in every form was not.
    pub fn finish(&self, title: &str, seed: u64, wanted: &[Met]) {
        self.finish_in(&FORMS, title, seed, wanted);
    }

    /// The same, and for things that can be met under the userland profile alone.
    pub fn finish_with(&self, title: &str, seed: u64, wanted: &[Met], in_userland: &[Met]) {
        self.finish(title, seed, wanted);
        self.want(&USER_FORMS, title, in_userland);
    }

    /// The same for things that can be met in these forms.
    pub fn finish_in(&self, forms: &[Form], title: &str, seed: u64, wanted: &[Met]) {
        println!("{title}, seed {seed:#x}");
        for ((met, form), count) in &self.0 {
            println!("  {met}, {form:?}: {count}");
        }
        self.want(forms, title, wanted);
    }

    /// Fails where a thing that can be met in these forms was not.
    pub fn want(&self, forms: &[Form], title: &str, wanted: &[Met]) {
        for &met in wanted {
            for &form in forms {
                let is_met = self.0.contains_key(&(met, form));
                assert!(is_met, "{title}: {met} was never met, {form:?}");
            }
        }
    }
}
