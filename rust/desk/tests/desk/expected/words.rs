//! Numbers in bytes (rules W1 to W5), and the words that mean something (C4, C7, U6).

use reference::Order;

pub const FREE_FILL: u32 = 0xdead_beef;
pub const REDZONE: u32 = 0xfeed_face;
pub const GUARD: u8 = 0xbb;

/// What the two words of a header add up to (U6).
pub const HEADER_SUM: u32 = 0x3a10_c000;

/// The word at an offset, in its order.
pub fn word(order: Order, bytes: &[u8], at: usize) -> u32 {
    let bytes = bytes[at..at + 4].iter();
    let push = |number: u32, byte: &u8| number << 8 | u32::from(*byte);
    match order {
        Order::HighFirst => bytes.fold(0, push),
        Order::LowFirst => bytes.rev().fold(0, push),
    }
}

/// The bytes of a word, as they stand in its order.
pub fn word_bytes(order: Order, word: u32) -> [u8; 4] {
    let high_first = [24, 16, 8, 0].map(|shift| (word >> shift) as u8);
    let [a, b, c, d] = high_first;
    match order {
        Order::HighFirst => high_first,
        Order::LowFirst => [d, c, b, a],
    }
}
