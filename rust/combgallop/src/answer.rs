//! The one number that every call answers.

use std::fmt::Debug;

use crate::Refusal;

/// Bits 0 to 7 are the refusal's number, 0 when accepted; bits 8 to 15 its detail;
/// bits 16 to 31 the start of the client's bytes, for a show; bits 32 to 63 the value. The
/// start is 0 in every other answer, and so is the value of a refusal.
#[derive(Clone, Copy, PartialEq, Eq, Debug)]
pub struct Answer(pub u64);

impl Answer {
    /// The value of an accepted call, or why it was refused.
    pub fn value(self) -> Result<u32, Refusal> {
        let [number, detail, ..] = self.0.to_le_bytes();
        if number == 0 {
            return Ok((self.0 >> 32) as u32);
        }
        let refusal = Refusal::from_numbers(number, detail);
        Err(named(refusal, "refusal", [number, detail]))
    }

    /// Where in the buffer the client's bytes start, in the answer to an accepted show.
    pub fn start(self) -> u16 {
        (self.0 >> 16) as u16
    }

    /// Why the call was refused, for one whose value says nothing.
    pub(crate) fn done(self) -> Result<(), Refusal> {
        self.value().map(|_| ())
    }
}

/// What numbers that the library gave stand for. It gives only numbers that the rules
/// name; any other would mean that the archive linked is not this library's, and that
/// none of its answers can be used.
pub(crate) fn named<T>(meaning: Option<T>, what: &str, numbers: impl Debug) -> T {
    match meaning {
        Some(meaning) => meaning,
        None => panic!("the library answered {what} {numbers:?}, which no rule names"),
    }
}

#[cfg(test)]
mod tests {
    use super::Answer;
    use crate::{Fault, Refusal};

    #[test]
    fn value_of_an_accepted_call() {
        assert_eq!(Answer(0x8000_0201_0000_0000).value(), Ok(0x8000_0201));
        assert_eq!(Answer(0).value(), Ok(0));
    }

    #[test]
    fn start_of_the_clients_bytes() {
        let answer = Answer(0x8000_0201_fff8_0000);
        assert_eq!((answer.value(), answer.start()), (Ok(0x8000_0201), 0xfff8));
        assert_eq!(Answer(0x1407).start(), 0);
    }

    #[test]
    fn number_and_detail_of_a_refusal() {
        let damage = Refusal::Damage(Fault::NotOneRecord);
        assert_eq!(Answer(0x1407).value(), Err(damage));
        assert_eq!(Answer(0x1d07).value(), Err(Refusal::BrokenHead));
        let damage = Refusal::Damage(Fault::BadHeader);
        assert_eq!(Answer(0x1e07).value(), Err(damage));
        assert_eq!(Answer(12).value(), Err(Refusal::WideStamp));
        assert_eq!(Answer(13).value(), Err(Refusal::NoThread));
    }

    #[test]
    #[should_panic(expected = "refusal [14, 0], which no rule names")]
    fn number_of_no_refusal() {
        let _ = Answer(14).value();
    }
}
