//! The two profiles, and what differs between them: how long a record is, how long a
//! sized grant's header is, and the header's bytes.

use crate::words::{word_bytes, Order};

/// The rules an image is laid out or found under. "The caller names the profile."
#[derive(Clone, Copy, Debug, PartialEq, Eq)]
pub enum Profile {
    /// The rules of the base document.
    Kernel,
    /// libumem's: "a profile with its own rules".
    Userland,
}

/// The sum of a header's two words: "the coded size, then 0x3a10c000 minus the coded
/// size".
const HEADER_SUM: u32 = 0x3a10_c000;

impl Profile {
    /// "n records of 96 bytes", or "records of 100 bytes with fifteen stack words".
    pub(crate) fn record_size(self) -> u32 {
        match self {
            Profile::Kernel => 96,
            Profile::Userland => 100,
        }
    }

    /// "The first 8 buffer bytes are a header", and the coded size is "the client's
    /// request plus 8"; without a header the coded size is the request.
    pub(crate) fn header_length(self) -> u32 {
        match self {
            Profile::Kernel => 0,
            Profile::Userland => 8,
        }
    }

    /// The header of a grant: "the coded size, then 0x3a10c000 minus the coded size".
    pub(crate) fn header(self, order: Order, coded_size: u32) -> Vec<u8> {
        let words: &[u32] = match self {
            Profile::Kernel => &[],
            Profile::Userland => &[coded_size, HEADER_SUM - coded_size],
        };
        words
            .iter()
            .flat_map(|word| word_bytes(order, *word))
            .collect()
    }
}
