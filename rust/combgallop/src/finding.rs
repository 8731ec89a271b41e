//! The findings of an image, one for each buffer.

use std::fmt::{Display, Formatter, Result as Written};
use std::slice::Iter;

use crate::answer::named;
use crate::Verdict;

/// What is found of the buffer with an index.
#[derive(Clone, Copy, PartialEq, Eq, Debug)]
pub struct Finding {
    pub index: u32,
    pub verdict: Verdict,
}

impl Display for Finding {
    fn fmt(&self, out: &mut Formatter) -> Written {
        write!(out, "buffer {}: {}", self.index, self.verdict)
    }
}

/// The findings in the order of the buffers, read from the rows that a call has filled.
#[derive(Clone, Debug)]
pub struct Findings<'a> {
    rows: Iter<'a, [u32; 3]>,
}

impl<'a> Findings<'a> {
    /// The findings of so many buffers, three numbers each.
    pub(crate) fn new(rows: &'a [u32], count: u32) -> Findings<'a> {
        let (rows, _) = rows.as_chunks();
        Findings {
            rows: rows[..count as usize].iter(),
        }
    }
}

impl Iterator for Findings<'_> {
    type Item = Finding;

    fn next(&mut self) -> Option<Finding> {
        let &[index, number, value] = self.rows.next()?;
        let verdict = Verdict::from_numbers(number, value);
        let verdict = named(verdict, "verdict", [number, value]);
        Some(Finding { index, verdict })
    }

    fn size_hint(&self) -> (usize, Option<usize>) {
        self.rows.size_hint()
    }
}

impl ExactSizeIterator for Findings<'_> {}

#[cfg(test)]
mod tests {
    use super::{Finding, Findings};
    use crate::Verdict;

    /// The dump's rows, and two numbers past them that are no row.
    const ROWS: [u32; 11] = [0, 0, 0, 1, 2, 20, 2, 0, 0, 7, 7];

    #[test]
    fn findings_of_the_dump() {
        let found = Findings::new(&ROWS, 3);
        assert_eq!(found.len(), 3);
        let expected = [Verdict::Free, Verdict::Allocated(20), Verdict::Free];
        let expected = (0..).zip(expected);
        let expected = expected.map(|(index, verdict)| Finding { index, verdict });
        assert!(found.eq(expected));
    }

    #[test]
    fn words_of_a_finding() {
        let second = Findings::new(&ROWS, 3).nth(1).expect("three findings");
        assert_eq!(second.to_string(), "buffer 1: allocated, size 20");
    }

    #[test]
    #[should_panic(expected = "verdict [4, 0], which no rule names")]
    fn number_of_no_verdict() {
        Findings::new(&[0, 4, 0], 1).next();
    }
}
