//! What a client asks for, and hands back.

/// The whole buffer, or so many bytes of it. The size is the client's request, without the
/// header that the userland profile puts before its bytes.
#[derive(Clone, Copy, PartialEq, Eq, Debug)]
pub enum Grant {
    Whole,
    Sized(u32),
}

impl Grant {
    /// Whether it is the whole buffer, and the size, which is not read if it is.
    pub(crate) fn numbers(self) -> (bool, u32) {
        match self {
            Grant::Whole => (true, 0),
            Grant::Sized(size) => (false, size),
        }
    }
}
