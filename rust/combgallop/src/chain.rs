//! The chain of free buffers' records.

use crate::answer::named;

/// How many records a chain meets, and how it ends.
#[derive(Clone, Copy, PartialEq, Eq, Debug)]
pub struct Chain {
    pub met: usize,
    pub ending: Ending,
}

impl Chain {
    /// The chain that three numbers of a survey stand for.
    pub(crate) fn new([met, ending, record]: [u32; 3]) -> Chain {
        let named_ending = Ending::from_numbers(ending, record);
        Chain {
            met: met as usize,
            ending: named(named_ending, "chain's ending", [ending, record]),
        }
    }
}

/// How a chain ends.
#[derive(Clone, Copy, PartialEq, Eq, Debug)]
pub enum Ending {
    /// At 0.
    End,
    /// At a word that is no record's address.
    Broken,
    /// At a record already met, by its index.
    Again(usize),
}

impl Ending {
    /// The ending with a number and with the record that goes with it, which is 0 where
    /// none does. None where there is no such ending.
    pub fn from_numbers(number: u32, record: u32) -> Option<Ending> {
        match (number, record) {
            (0, 0) => Some(Ending::End),
            (1, 0) => Some(Ending::Broken),
            (2, record) => Some(Ending::Again(record as usize)),
            _ => None,
        }
    }
}

#[cfg(test)]
mod tests {
    use super::{Chain, Ending};

    #[test]
    fn every_ending() {
        assert_eq!(Ending::from_numbers(0, 0), Some(Ending::End));
        assert_eq!(Ending::from_numbers(1, 0), Some(Ending::Broken));
        assert_eq!(Ending::from_numbers(2, 0), Some(Ending::Again(0)));
        assert_eq!(Ending::from_numbers(2, 511), Some(Ending::Again(511)));
    }

    #[test]
    fn no_other_ending() {
        for (number, record) in [(0, 1), (1, 1), (3, 0), (0x100, 0), (u32::MAX, 0)] {
            assert_eq!(Ending::from_numbers(number, record), None);
        }
    }

    #[test]
    fn chain_of_the_dump() {
        let ending = Ending::End;
        assert_eq!(Chain::new([2, 0, 0]), Chain { met: 2, ending });
    }

    #[test]
    #[should_panic(expected = "chain's ending [3, 0], which no rule names")]
    fn number_of_no_ending() {
        Chain::new([2, 3, 0]);
    }
}
