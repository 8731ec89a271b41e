//! The verdicts and their numbers.

use crate::size_code::CodeHurt;

/// What is found of a buffer, by the document's numbers.
#[derive(Clone, Copy, PartialEq, Eq, Debug, Default)]
pub enum Verdict {
    /// 0: free.
    #[default]
    Free,
    /// 1: allocated whole.
    Whole,
    /// 2: allocated, with the size: "verdict 2 and free name the request".
    Allocated(u32),
    /// 3: cached, free in a magazine and off the chain.
    Cached,
    /// 20: not exactly one record names it.
    NotNamedOnce,
    /// 21: T0 isn't its own record's address, or the xor is neither pattern.
    BadTag,
    /// 22: the chain is "again" at its record, or the buffer is "listed twice or more, or
    /// listed and on the chain".
    FreedTwice,
    /// 23: free pattern, record not met by the chain, and not listed: "off both".
    FreeNotMet,
    /// 24: allocated pattern, record met by the chain, or listed.
    AllocatedMet,
    /// 25: the fill of a free buffer differs, with the offset.
    FillDiffers(u32),
    /// 26: the redzone of a free buffer differs, with the offset.
    RedzoneDiffers(u32),
    /// 27, 31 or 32: R1 is no size code, with "how the size code is bad".
    BadSizeCode(CodeHurt),
    /// 28: the guard byte or R0 of an allocated buffer differs, with the offset.
    GuardDiffers(u32),
    /// 30: "header wrong", or the coded size leaves the client no byte after it.
    BadHeader,
}

impl Verdict {
    /// The document's number.
    pub fn number(self) -> u32 {
        match self {
            Verdict::Free => 0,
            Verdict::Whole => 1,
            Verdict::Allocated(_) => 2,
            Verdict::Cached => 3,
            Verdict::NotNamedOnce => 20,
            Verdict::BadTag => 21,
            Verdict::FreedTwice => 22,
            Verdict::FreeNotMet => 23,
            Verdict::AllocatedMet => 24,
            Verdict::FillDiffers(_) => 25,
            Verdict::RedzoneDiffers(_) => 26,
            Verdict::BadSizeCode(hurt) => hurt.number(),
            Verdict::GuardDiffers(_) => 28,
            Verdict::BadHeader => 30,
        }
    }

    /// The size for 2, the offset for 25, 26 and 28, and 0 for the rest.
    pub fn value(self) -> u32 {
        match self {
            Verdict::Allocated(size) => size,
            Verdict::FillDiffers(offset)
            | Verdict::RedzoneDiffers(offset)
            | Verdict::GuardDiffers(offset) => offset,
            _ => 0,
        }
    }
}
