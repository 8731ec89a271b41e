//! What differs between the profiles: how long a record is, and the header of a sized
//! grant.

use reference::{Order, Profile};

use crate::words::word_bytes;

pub const PROFILES: [Profile; 2] = [Profile::Kernel, Profile::Userland];

/// What the two words of a header add up to.
const HEADER_SUM: u32 = 0x3a10_c000;

/// "n records of 96 bytes", and userland's "records of 100 bytes with fifteen stack words".
pub fn record_size(profile: Profile) -> usize {
    match profile {
        Profile::Kernel => 96,
        Profile::Userland => 100,
    }
}

/// How many bytes stand before the client's in a buffer that was granted with a size: the
/// coded size is the client's request and as many more.
pub fn header_length(profile: Profile) -> usize {
    match profile {
        Profile::Kernel => 0,
        Profile::Userland => 8,
    }
}

/// "The coded size, then 0x3a10c000 minus the coded size."
pub fn header(profile: Profile, order: Order, coded_size: u32) -> Vec<u8> {
    let words = [coded_size, HEADER_SUM.wrapping_sub(coded_size)];
    let mut bytes = words.map(|word| word_bytes(order, word)).concat();
    bytes.truncate(header_length(profile));
    bytes
}

/// The other of the two.
pub fn other_profile(profile: Profile) -> Profile {
    match profile {
        Profile::Kernel => Profile::Userland,
        Profile::Userland => Profile::Kernel,
    }
}
