//! The numbers of a sheet.

use crate::Order;

/// How long a sheet is that says the order of the words.
const LONG_LENGTH: usize = 52;

/// Where the order stands in such a sheet.
const ORDER_AT: usize = 51;

/// What a sheet says. The numbers of a sheet stand with the high byte first, always.
#[derive(Clone, Copy, PartialEq, Eq, Debug)]
pub struct Sheet {
    pub cache: u32,
    pub heap_base: u32,
    pub record_base: u32,
    pub buffer_size: u32,
    pub chunk_size: u32,
    /// How many buffers there are.
    pub count: u32,
    /// Where the chain of free buffers' records starts, 0 for none.
    pub head: u32,
    pub flags: u32,
    pub order: Order,
}

impl Sheet {
    /// What the bytes of a sheet say that the library accepts.
    pub(crate) fn read(bytes: &[u8]) -> Sheet {
        let is_low_first = bytes.len() == LONG_LENGTH && bytes[ORDER_AT] == 1;
        Sheet {
            cache: number(&bytes[3..7]),
            heap_base: number(&bytes[10..14]),
            record_base: number(&bytes[17..21]),
            buffer_size: number(&bytes[24..26]),
            chunk_size: number(&bytes[29..31]),
            count: number(&bytes[34..36]),
            head: number(&bytes[39..43]),
            flags: number(&bytes[46..48]),
            order: if is_low_first {
                Order::LowFirst
            } else {
                Order::HighFirst
            },
        }
    }
}

/// The number that some bytes stand for, the high byte first.
fn number(bytes: &[u8]) -> u32 {
    let bytes = bytes.iter();
    bytes.fold(0, |number, byte| number << 8 | u32::from(*byte))
}
