//! Why a call is refused.

/// "A refusal returns its number and detail (0 except for 7)."
#[derive(Clone, Copy, PartialEq, Eq, Debug)]
pub struct Refusal {
    pub number: u8,
    pub detail: u8,
}

impl Refusal {
    /// A refusal of any number but 7.
    pub(crate) fn plain(number: u8) -> Refusal {
        Refusal { number, detail: 0 }
    }

    /// Refusal 7, "damage met; detail is the verdict number, or 29 for a broken head".
    pub(crate) fn damage(detail: u8) -> Refusal {
        Refusal { number: 7, detail }
    }
}
