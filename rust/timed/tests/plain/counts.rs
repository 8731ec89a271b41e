//! What a run met, so that no rule goes untested unnoticed.

use std::collections::BTreeMap;

use differential::{Form, KERNEL_FORMS};
use reference::{Finding, Refusal};

/// Every verdict there is under the kernel profile, which the C is written for.
pub const VERDICTS: [u32; 15] = [0, 1, 2, 3, 20, 21, 22, 23, 24, 25, 26, 27, 28, 31, 32];

/// How often each thing was met, for each form that the images were made in.
#[derive(Default)]
pub struct Counts(BTreeMap<(Form, String), usize>);

impl Counts {
    pub fn note(&mut self, form: Form, met: String) {
        *self.0.entry((form, met)).or_default() += 1;
    }

    pub fn note_found(&mut self, form: Form, found: &Result<Vec<Finding>, Refusal>) {
        match found {
            Ok(findings) => {
                for finding in findings {
                    self.note(form, verdict(finding.verdict.number()));
                }
            }
            Err(refused) => self.note_refusal(form, "inspect", *refused),
        }
    }

    pub fn note_refusal(&mut self, form: Form, call: &str, refused: Refusal) {
        self.note(form, refusal(call, (refused.number, refused.detail)));
    }

    /// Prints the counts, and fails where a thing that can be met was not, in any form.
    pub fn finish(&self, title: &str, seed: u64, wanted: impl IntoIterator<Item = String>) {
        println!("plain C, {title}, seed {seed:#x}");
        for ((form, met), count) in &self.0 {
            println!("  {}, {met}: {count}", name(*form));
        }
        for met in wanted {
            for form in KERNEL_FORMS {
                let is_met = self.0.contains_key(&(form, met.clone()));
                assert!(is_met, "{title}, {}: {met} was never met", name(form));
            }
        }
    }
}

/// The order of the words, and which of its two sheets the one with the high byte first
/// has.
fn name(form: Form) -> &'static str {
    match form {
        Form::Short => "high first by a short sheet",
        Form::High => "high first",
        Form::Low => "low first",
        _ => panic!("plain C has the kernel profile alone"),
    }
}

pub fn verdict(number: u32) -> String {
    format!("verdict {number:02}")
}

pub fn accepted(call: &str) -> String {
    format!("{call} accepted")
}

/// A refusal's number and detail.
pub fn refusal(call: &str, (number, detail): (u8, u8)) -> String {
    format!("{call} refused {number:02}, detail {detail:02}")
}

/// So many refusals of a call.
pub fn refusals<'a>(call: &'a str, all: &'a [(u8, u8)]) -> impl Iterator<Item = String> + 'a {
    all.iter().map(move |&one| refusal(call, one))
}

pub fn hurt(name: &str) -> String {
    format!("hurt: {name}")
}
