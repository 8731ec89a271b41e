//! Numbers in bytes, in either order.

/// How a number's bytes stand: "0 for high byte first, 1 for low byte first".
#[derive(Clone, Copy, Debug, PartialEq, Eq)]
pub enum Order {
    HighFirst,
    LowFirst,
}

impl Order {
    /// The order that tag 9 means by its number; none for "other values".
    pub(crate) fn from_number(number: u32) -> Option<Order> {
        match number {
            0 => Some(Order::HighFirst),
            1 => Some(Order::LowFirst),
            _ => None,
        }
    }

    /// The number by which tag 9 means this order.
    pub(crate) fn number(self) -> u32 {
        match self {
            Order::HighFirst => 0,
            Order::LowFirst => 1,
        }
    }
}

/// The four bytes of a word, as they stand in memory.
pub fn word_bytes(order: Order, word: u32) -> [u8; 4] {
    match order {
        Order::HighFirst => word.to_be_bytes(),
        Order::LowFirst => word.to_le_bytes(),
    }
}

/// The four-byte word at an offset.
pub fn word(order: Order, bytes: &[u8], at: usize) -> u32 {
    let bytes = [bytes[at], bytes[at + 1], bytes[at + 2], bytes[at + 3]];
    match order {
        Order::HighFirst => u32::from_be_bytes(bytes),
        Order::LowFirst => u32::from_le_bytes(bytes),
    }
}

/// Writes a four-byte word at an offset.
pub fn put_word(order: Order, bytes: &mut [u8], at: usize, word: u32) {
    bytes[at..at + 4].copy_from_slice(&word_bytes(order, word));
}

/// "The stamp as one eight-byte number": the number at an offset. Its high half
/// stands first when the high byte does, and last when the low byte stands first.
pub fn long(order: Order, bytes: &[u8], at: usize) -> u64 {
    let first = u64::from(word(order, bytes, at));
    let last = u64::from(word(order, bytes, at + 4));
    match order {
        Order::HighFirst => first << 32 | last,
        Order::LowFirst => last << 32 | first,
    }
}

/// Writes an eight-byte number at an offset.
pub fn put_long(order: Order, bytes: &mut [u8], at: usize, long: u64) {
    let eight = match order {
        Order::HighFirst => long.to_be_bytes(),
        Order::LowFirst => long.to_le_bytes(),
    };
    bytes[at..at + 8].copy_from_slice(&eight);
}
