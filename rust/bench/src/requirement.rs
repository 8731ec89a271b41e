//! What the times have to keep to.

use std::fmt::{Display, Formatter, Result};

/// A ratio that may not be passed in any case.
pub struct Requirement {
    what: String,
    limit: f64,
    cases: Vec<(String, f64)>,
}

impl Requirement {
    pub fn new(what: &str, limit: f64) -> Requirement {
        Requirement {
            what: what.to_string(),
            limit,
            cases: Vec::new(),
        }
    }

    pub fn add(&mut self, case: &str, ratio: f64) {
        self.cases.push((case.to_string(), ratio));
    }

    pub fn holds(&self) -> bool {
        self.cases.iter().all(|(_, ratio)| *ratio <= self.limit)
    }
}

impl Display for Requirement {
    /// One row: the limit, the case that is nearest to it or past it, and what follows.
    fn fmt(&self, out: &mut Formatter) -> Result {
        let Requirement { what, limit, cases } = self;
        let worst = cases.iter().max_by(|a, b| a.1.total_cmp(&b.1));
        let (case, ratio) = worst.expect("a requirement has cases");
        let verdict = if self.holds() {
            "holds"
        } else {
            "DOES NOT HOLD"
        };
        let passing = cases.iter().filter(|(_, ratio)| ratio <= limit).count();
        let all = cases.len();
        write!(
            out,
            "| {what} | {limit:.2} | {ratio:.2} | {case} | {passing} of {all} | {verdict} |"
        )
    }
}
