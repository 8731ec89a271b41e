//! Numbers in an area, which an earlier hurt may have cut.

use reference::Order;

/// The bytes of a word, as they stand in an area (W5).
pub fn word_bytes(order: Order, word: u32) -> [u8; 4] {
    match order {
        Order::HighFirst => word.to_be_bytes(),
        Order::LowFirst => word.to_le_bytes(),
    }
}

/// The word at an offset, 0 where the area ends before it does.
pub fn word(order: Order, area: &[u8], at: usize) -> u32 {
    let Some(&[a, b, c, d]) = area.get(at..at + 4) else {
        return 0;
    };
    match order {
        Order::HighFirst => u32::from_be_bytes([a, b, c, d]),
        Order::LowFirst => u32::from_le_bytes([a, b, c, d]),
    }
}

/// Writes a word, unless the area ends before it does.
pub fn put_word(order: Order, area: &mut [u8], at: usize, word: u32) {
    put_bytes(area, at, &word_bytes(order, word));
}

/// A number of four bytes in a sheet, whose numbers stand high byte first in every form.
pub fn sheet_word(sheet: &[u8], at: usize) -> u32 {
    word(Order::HighFirst, sheet, at)
}

pub fn put_sheet_word(sheet: &mut [u8], at: usize, word: u32) {
    put_word(Order::HighFirst, sheet, at, word);
}

/// Writes a number of two bytes in a sheet, unless it ends before that.
pub fn put_sheet_half(sheet: &mut [u8], at: usize, half: u16) {
    put_bytes(sheet, at, &half.to_be_bytes());
}

/// Writes bytes, unless the area ends before they do.
pub fn put_bytes(area: &mut [u8], at: usize, bytes: &[u8]) {
    if let Some(place) = area.get_mut(at..at + bytes.len()) {
        place.copy_from_slice(bytes);
    }
}

/// Changes the byte at an offset to another, unless the area ends before it.
pub fn change_byte(area: &mut [u8], at: usize, difference: u8) {
    if let Some(byte) = area.get_mut(at) {
        *byte ^= difference.max(1);
    }
}
