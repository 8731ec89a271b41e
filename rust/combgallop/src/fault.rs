//! What is damaged.

use std::fmt::{Display, Formatter, Result as Written};

use crate::meaning::VERDICTS;
use crate::{BadCode, Meaning};

/// The kinds of damage.
#[derive(Clone, Copy, PartialEq, Eq, Debug)]
pub enum Fault {
    NotOneRecord,
    BadTag,
    FreedTwice,
    OffChain,
    OnChain,
    BadFill,
    BadRedzone,
    BadSizeCode(BadCode),
    Overrun,
    BadHeader,
}

impl Fault {
    /// Every one, in the order of the numbers.
    pub const ALL: [Fault; 12] = [
        Fault::NotOneRecord,
        Fault::BadTag,
        Fault::FreedTwice,
        Fault::OffChain,
        Fault::OnChain,
        Fault::BadFill,
        Fault::BadRedzone,
        Fault::BadSizeCode(BadCode::Remainder),
        Fault::Overrun,
        Fault::BadHeader,
        Fault::BadSizeCode(BadCode::Zero),
        Fault::BadSizeCode(BadCode::Above),
    ];

    /// The fault with a number, none where there is no such fault.
    pub fn from_number(number: u8) -> Option<Fault> {
        let mut all = Fault::ALL.into_iter();
        all.find(|fault| fault.number() == number)
    }

    /// The verdict's number.
    pub fn number(self) -> u8 {
        match self {
            Fault::NotOneRecord => 20,
            Fault::BadTag => 21,
            Fault::FreedTwice => 22,
            Fault::OffChain => 23,
            Fault::OnChain => 24,
            Fault::BadFill => 25,
            Fault::BadRedzone => 26,
            Fault::BadSizeCode(how) => how.number(),
            Fault::Overrun => 28,
            Fault::BadHeader => 30,
        }
    }

    /// What it means: its row of the table.
    pub fn meaning(self) -> &'static Meaning {
        Meaning::of(&VERDICTS, self.number())
    }
}

impl Display for Fault {
    fn fmt(&self, out: &mut Formatter) -> Written {
        out.write_str(self.meaning().words)
    }
}
