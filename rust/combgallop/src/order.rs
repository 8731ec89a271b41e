//! The order of an image's words.

/// Which byte of a number stands first in the heap, the records and the log.
#[derive(Clone, Copy, PartialEq, Eq, Debug)]
pub enum Order {
    HighFirst,
    LowFirst,
}

impl Order {
    /// The number that four bytes of an image stand for.
    pub fn word(self, bytes: [u8; 4]) -> u32 {
        match self {
            Order::HighFirst => u32::from_be_bytes(bytes),
            Order::LowFirst => u32::from_le_bytes(bytes),
        }
    }

    /// The number that eight bytes of an image stand for.
    pub fn long(self, bytes: [u8; 8]) -> u64 {
        match self {
            Order::HighFirst => u64::from_be_bytes(bytes),
            Order::LowFirst => u64::from_le_bytes(bytes),
        }
    }

    /// The bytes of a number, as they stand in an image.
    pub fn bytes(self, word: u32) -> [u8; 4] {
        match self {
            Order::HighFirst => word.to_be_bytes(),
            Order::LowFirst => word.to_le_bytes(),
        }
    }

    pub(crate) fn is_low_first(self) -> bool {
        match self {
            Order::HighFirst => false,
            Order::LowFirst => true,
        }
    }
}
