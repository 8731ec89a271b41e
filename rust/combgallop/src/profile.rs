//! The profile of an image.

/// The rules by which an image's records and grants are written. No image says which: the
/// caller names the profile in every call.
#[derive(Clone, Copy, PartialEq, Eq, Debug)]
pub enum Profile {
    /// Records of 96 bytes; the client's bytes are the buffer's first.
    Kernel,
    /// libumem's: records of 100 bytes; a grant of a size has a header of 8 bytes at the
    /// buffer's start, before the client's bytes. A whole grant has none.
    Userland,
}

impl Profile {
    pub(crate) fn is_userland(self) -> bool {
        match self {
            Profile::Kernel => false,
            Profile::Userland => true,
        }
    }
}
