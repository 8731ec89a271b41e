//! Why a call is refused.

use std::error::Error;
use std::fmt::{Display, Formatter, Result as Written};

use crate::meaning::{BROKEN_HEAD, REFUSALS};
use crate::{Fault, Meaning};

/// The refusals in the order of their numbers. A broken head is damage of its own kind.
#[derive(Clone, Copy, PartialEq, Eq, Debug)]
pub enum Refusal {
    BadSheet,
    BadNumber,
    BadLength,
    NoSuchBuffer,
    NoRoom,
    BadSize,
    Damage(Fault),
    BrokenHead,
    NotAllocated,
    OtherGrant,
    PastClient,
    ShortOutput,
    WideStamp,
    NoThread,
}

impl Refusal {
    /// The refusal with a number and a detail, none where there is no such refusal.
    pub fn from_numbers(number: u8, detail: u8) -> Option<Refusal> {
        Some(match (number, detail) {
            (1, 0) => Refusal::BadSheet,
            (2, 0) => Refusal::BadNumber,
            (3, 0) => Refusal::BadLength,
            (4, 0) => Refusal::NoSuchBuffer,
            (5, 0) => Refusal::NoRoom,
            (6, 0) => Refusal::BadSize,
            (7, 29) => Refusal::BrokenHead,
            (7, fault) => Refusal::Damage(Fault::from_number(fault)?),
            (8, 0) => Refusal::NotAllocated,
            (9, 0) => Refusal::OtherGrant,
            (10, 0) => Refusal::PastClient,
            (11, 0) => Refusal::ShortOutput,
            (12, 0) => Refusal::WideStamp,
            (13, 0) => Refusal::NoThread,
            _ => return None,
        })
    }

    pub fn number(self) -> u8 {
        match self {
            Refusal::BadSheet => 1,
            Refusal::BadNumber => 2,
            Refusal::BadLength => 3,
            Refusal::NoSuchBuffer => 4,
            Refusal::NoRoom => 5,
            Refusal::BadSize => 6,
            Refusal::Damage(_) | Refusal::BrokenHead => 7,
            Refusal::NotAllocated => 8,
            Refusal::OtherGrant => 9,
            Refusal::PastClient => 10,
            Refusal::ShortOutput => 11,
            Refusal::WideStamp => 12,
            Refusal::NoThread => 13,
        }
    }

    /// The number of the damage met, 0 where the refusal is no damage.
    pub fn detail(self) -> u8 {
        match self {
            Refusal::Damage(fault) => fault.number(),
            Refusal::BrokenHead => 29,
            _ => 0,
        }
    }

    /// What it means: its row of the table of refusals, or the row of the damage met.
    pub fn meaning(self) -> &'static Meaning {
        match self {
            Refusal::Damage(fault) => fault.meaning(),
            Refusal::BrokenHead => &BROKEN_HEAD,
            _ => Meaning::of(&REFUSALS, self.number()),
        }
    }
}

impl Display for Refusal {
    fn fmt(&self, out: &mut Formatter) -> Written {
        write!(out, "refusal {}", self.number())?;
        if self.detail() != 0 {
            write!(out, ", detail {}", self.detail())?;
        }
        write!(out, ": {}", self.meaning().words)
    }
}

impl Error for Refusal {}

#[cfg(test)]
mod tests {
    use std::collections::BTreeSet;
    use std::error::Error;

    use super::Refusal;
    use crate::{BadCode, Fault};

    /// The document's table, "detail is the verdict number, or 29 for a broken head".
    const TABLE: [(u8, u8, Refusal); 25] = [
        (1, 0, Refusal::BadSheet),
        (2, 0, Refusal::BadNumber),
        (3, 0, Refusal::BadLength),
        (4, 0, Refusal::NoSuchBuffer),
        (5, 0, Refusal::NoRoom),
        (6, 0, Refusal::BadSize),
        (7, 20, Refusal::Damage(Fault::NotOneRecord)),
        (7, 21, Refusal::Damage(Fault::BadTag)),
        (7, 22, Refusal::Damage(Fault::FreedTwice)),
        (7, 23, Refusal::Damage(Fault::OffChain)),
        (7, 24, Refusal::Damage(Fault::OnChain)),
        (7, 25, Refusal::Damage(Fault::BadFill)),
        (7, 26, Refusal::Damage(Fault::BadRedzone)),
        (
            7,
            27,
            Refusal::Damage(Fault::BadSizeCode(BadCode::Remainder)),
        ),
        (7, 28, Refusal::Damage(Fault::Overrun)),
        (7, 29, Refusal::BrokenHead),
        (7, 30, Refusal::Damage(Fault::BadHeader)),
        (7, 31, Refusal::Damage(Fault::BadSizeCode(BadCode::Zero))),
        (7, 32, Refusal::Damage(Fault::BadSizeCode(BadCode::Above))),
        (8, 0, Refusal::NotAllocated),
        (9, 0, Refusal::OtherGrant),
        (10, 0, Refusal::PastClient),
        (11, 0, Refusal::ShortOutput),
        (12, 0, Refusal::WideStamp),
        (13, 0, Refusal::NoThread),
    ];

    /// All pairs of a number and a detail there can be, so that none has a meaning that
    /// the table does not give it.
    #[test]
    fn every_number_and_detail() {
        for number in 0..=u8::MAX {
            for detail in 0..=u8::MAX {
                let mut rows = TABLE
                    .iter()
                    .filter(|row| (row.0, row.1) == (number, detail));
                let expected = rows.next().map(|row| row.2);
                assert_eq!(Refusal::from_numbers(number, detail), expected);
            }
        }
    }

    #[test]
    fn every_refusal_has_its_number_and_detail() {
        for (number, detail, refusal) in TABLE {
            assert_eq!((refusal.number(), refusal.detail()), (number, detail));
        }
    }

    #[test]
    fn words_of_a_refusal() {
        let refused: Box<dyn Error> = Box::new(Refusal::NoRoom);
        assert_eq!(
            refused.to_string(),
            "refusal 5: no buffer is left on the chain"
        );
        assert_eq!(
            Refusal::Damage(Fault::BadFill).to_string(),
            "refusal 7, detail 25: written to after it was freed"
        );
        assert_eq!(
            Refusal::BrokenHead.to_string(),
            "refusal 7, detail 29: damage was met: the chain starts at no record"
        );
    }

    /// No two refusals have the same words, and each has its number in them.
    #[test]
    fn words_of_every_refusal() {
        let texts: BTreeSet<String> = TABLE.map(|row| row.2.to_string()).into();
        assert_eq!(texts.len(), TABLE.len());
        for (number, detail, refusal) in TABLE {
            let start = match detail {
                0 => format!("refusal {number}: "),
                _ => format!("refusal {number}, detail {detail}: "),
            };
            assert!(refusal.to_string().starts_with(&start), "{refusal}");
        }
    }
}
