//! What is found of a buffer.

use std::fmt::{Display, Formatter, Result as Written};

use crate::meaning::VERDICTS;
use crate::{BadCode, Fault, Meaning};

/// The verdicts in the order of their numbers; a bad size code has one of three. A size is
/// that which the client asked for, without a header; an offset is that of the first byte
/// that differs, from the buffer's start. A free buffer is on the chain; a cached one is free
/// too, but off the chain and in a magazine. Only userland images have a header to be wrong.
#[derive(Clone, Copy, PartialEq, Eq, Debug)]
pub enum Verdict {
    Free,
    Whole,
    Allocated(u32),
    Cached,
    NotOneRecord,
    BadTag,
    FreedTwice,
    OffChain,
    OnChain,
    BadFill(u32),
    BadRedzone(u32),
    BadSizeCode(BadCode),
    Overrun(u32),
    BadHeader,
}

impl Verdict {
    /// The verdict with a number and with the size or offset that goes with it, which
    /// is 0 where none does. None where there is no such verdict.
    pub fn from_numbers(number: u32, value: u32) -> Option<Verdict> {
        Some(match (number, value) {
            (0, 0) => Verdict::Free,
            (1, 0) => Verdict::Whole,
            (2, size) => Verdict::Allocated(size),
            (3, 0) => Verdict::Cached,
            (20, 0) => Verdict::NotOneRecord,
            (21, 0) => Verdict::BadTag,
            (22, 0) => Verdict::FreedTwice,
            (23, 0) => Verdict::OffChain,
            (24, 0) => Verdict::OnChain,
            (25, offset) => Verdict::BadFill(offset),
            (26, offset) => Verdict::BadRedzone(offset),
            (27, 0) => Verdict::BadSizeCode(BadCode::Remainder),
            (28, offset) => Verdict::Overrun(offset),
            (30, 0) => Verdict::BadHeader,
            (31, 0) => Verdict::BadSizeCode(BadCode::Zero),
            (32, 0) => Verdict::BadSizeCode(BadCode::Above),
            _ => return None,
        })
    }

    pub fn number(self) -> u8 {
        match self {
            Verdict::Free => 0,
            Verdict::Whole => 1,
            Verdict::Allocated(_) => 2,
            Verdict::Cached => 3,
            Verdict::NotOneRecord => 20,
            Verdict::BadTag => 21,
            Verdict::FreedTwice => 22,
            Verdict::OffChain => 23,
            Verdict::OnChain => 24,
            Verdict::BadFill(_) => 25,
            Verdict::BadRedzone(_) => 26,
            Verdict::BadSizeCode(how) => how.number(),
            Verdict::Overrun(_) => 28,
            Verdict::BadHeader => 30,
        }
    }

    /// Whether the buffer is damaged.
    pub fn is_fault(self) -> bool {
        self.fault().is_some()
    }

    /// What is damaged, if anything is.
    pub fn fault(self) -> Option<Fault> {
        Fault::from_number(self.number())
    }

    /// What it means: its row of the table.
    pub fn meaning(self) -> &'static Meaning {
        Meaning::of(&VERDICTS, self.number())
    }

    /// The size that the client asked for, of verdict 2.
    pub fn size(self) -> Option<u32> {
        match self {
            Verdict::Allocated(size) => Some(size),
            _ => None,
        }
    }

    /// The offset of the first hurt byte from the buffer's start, of verdicts 25, 26 and 28.
    pub fn offset(self) -> Option<u32> {
        match self {
            Verdict::BadFill(offset) | Verdict::BadRedzone(offset) | Verdict::Overrun(offset) => {
                Some(offset)
            }
            _ => None,
        }
    }
}

impl Display for Verdict {
    fn fmt(&self, out: &mut Formatter) -> Written {
        if self.is_fault() {
            write!(out, "fault {}: ", self.number())?;
        }
        out.write_str(self.meaning().words)?;
        match (self.size(), self.offset()) {
            (Some(size), _) => write!(out, ", size {size}"),
            (_, Some(offset)) => write!(out, ", first at offset {offset}"),
            _ => Ok(()),
        }
    }
}

#[cfg(test)]
mod tests {
    use std::collections::BTreeSet;

    use super::Verdict;
    use crate::{BadCode, Fault};

    /// The document's verdicts: number, size or offset, and whether it is a fault,
    /// which is "a verdict of 20 or more".
    const TABLE: [(u32, u32, Verdict, bool); 16] = [
        (0, 0, Verdict::Free, false),
        (1, 0, Verdict::Whole, false),
        (2, 20, Verdict::Allocated(20), false),
        (3, 0, Verdict::Cached, false),
        (20, 0, Verdict::NotOneRecord, true),
        (21, 0, Verdict::BadTag, true),
        (22, 0, Verdict::FreedTwice, true),
        (23, 0, Verdict::OffChain, true),
        (24, 0, Verdict::OnChain, true),
        (25, 9, Verdict::BadFill(9), true),
        (26, 24, Verdict::BadRedzone(24), true),
        (27, 0, Verdict::BadSizeCode(BadCode::Remainder), true),
        (28, 20, Verdict::Overrun(20), true),
        (30, 0, Verdict::BadHeader, true),
        (31, 0, Verdict::BadSizeCode(BadCode::Zero), true),
        (32, 0, Verdict::BadSizeCode(BadCode::Above), true),
    ];

    #[test]
    fn every_verdict_has_its_number() {
        for (number, value, verdict, is_fault) in TABLE {
            assert_eq!(Verdict::from_numbers(number, value), Some(verdict));
            assert_eq!(u32::from(verdict.number()), number);
            assert_eq!(verdict.is_fault(), is_fault, "{verdict:?}");
        }
    }

    #[test]
    fn no_other_number_is_a_verdict() {
        let named = TABLE.map(|(number, ..)| number);
        for number in (0..=0xffff).chain([0x1_0014, 0x100_0014, u32::MAX]) {
            let found = Verdict::from_numbers(number, 0);
            assert_eq!(found.is_some(), named.contains(&number), "{number}");
        }
    }

    /// A size or offset goes with 2, 25, 26 and 28 alone.
    #[test]
    fn no_other_verdict_has_a_value() {
        for (number, ..) in TABLE {
            let found = Verdict::from_numbers(number, 1);
            let has_value = [2, 25, 26, 28].contains(&number);
            assert_eq!(found.is_some(), has_value, "{number}");
        }
    }

    #[test]
    fn every_fault_is_that_of_its_verdict() {
        let faults: Vec<Fault> = TABLE.iter().filter_map(|row| row.2.fault()).collect();
        assert_eq!(faults, Fault::ALL);
    }

    #[test]
    fn words_of_a_verdict() {
        assert_eq!(Verdict::Free.to_string(), "free");
        assert_eq!(Verdict::Whole.to_string(), "allocated whole");
        assert_eq!(Verdict::Allocated(20).to_string(), "allocated, size 20");
        assert_eq!(Verdict::Cached.to_string(), "free in a magazine");
        assert_eq!(
            Verdict::BadFill(9).to_string(),
            "fault 25: written to after it was freed, first at offset 9"
        );
        assert_eq!(
            Verdict::OnChain.to_string(),
            "fault 24: allocated, but on the chain or in a magazine"
        );
        assert_eq!(
            Verdict::BadSizeCode(BadCode::Zero).to_string(),
            "fault 31: allocated, and the word that holds its size was written over: it is the \
             code of size zero"
        );
    }

    /// A fault's words start with its number, and no two faults mean the same.
    #[test]
    fn words_of_every_fault() {
        let faults = TABLE.into_iter().filter(|row| row.3);
        let meanings: BTreeSet<String> = faults
            .map(|(number, _, verdict, _)| {
                let text = verdict.to_string();
                let meaning = text.strip_prefix(&format!("fault {number}: "));
                meaning.expect("its number first").to_string()
            })
            .collect();
        assert_eq!(meanings.len(), 12);
    }
}
