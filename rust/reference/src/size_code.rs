//! The size code of a sized grant, "251*s+1 in R1", and how it can be bad.

/// What the decoder makes of R1: the size it codes, or "how the size code is bad".
#[derive(Clone, Copy, PartialEq, Eq, Debug)]
pub enum SizeCode {
    /// "1 to buffer size": the s of a grant, or the coded size under the userland profile.
    Size(usize),
    Bad(CodeHurt),
}

/// "Three different hurts. The size decoder must tell them apart", in the order in which
/// they are tried.
#[derive(Clone, Copy, PartialEq, Eq, Debug)]
pub enum CodeHurt {
    /// 27: "wrong remainder".
    WrongRemainder,
    /// 31: "size zero with a right remainder".
    SizeZero,
    /// 32: "above buffer size with a right remainder".
    AboveBufferSize,
}

impl CodeHurt {
    /// The document's number of the verdict on a buffer with this hurt.
    pub fn number(self) -> u32 {
        match self {
            CodeHurt::WrongRemainder => 27,
            CodeHurt::SizeZero => 31,
            CodeHurt::AboveBufferSize => 32,
        }
    }
}

/// "27 wrong remainder, 31 size zero with a right remainder, 32 above buffer size with a
/// right remainder, tried in that order"; the rest have "R1 mod 251 is 1 and R1/251 is 1
/// to buffer size. Then s = R1/251".
pub fn decode(r1: u32, buffer_size: usize) -> SizeCode {
    let size = (r1 / 251) as usize;
    if r1 % 251 != 1 {
        return SizeCode::Bad(CodeHurt::WrongRemainder);
    }
    if size == 0 {
        return SizeCode::Bad(CodeHurt::SizeZero);
    }
    if size > buffer_size {
        return SizeCode::Bad(CodeHurt::AboveBufferSize);
    }
    SizeCode::Size(size)
}
