//! How a size code is bad.

/// In the order in which a code is tested. Under the userland profile the size is the coded
/// one, which is 8 more than the client asked for.
#[derive(Clone, Copy, PartialEq, Eq, Debug)]
pub enum BadCode {
    /// It is the code of no size at all.
    Remainder,
    Zero,
    /// The size is above the buffer's.
    Above,
}

impl BadCode {
    /// The number of the verdict.
    pub fn number(self) -> u8 {
        match self {
            BadCode::Remainder => 27,
            BadCode::Zero => 31,
            BadCode::Above => 32,
        }
    }
}
