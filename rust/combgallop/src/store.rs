//! What a client writes.

use crate::{ffi, Answer, Profile, Refusal};

/// Writes bytes at an offset in the client's bytes of the buffer at an address; the first
/// of these, which is behind the header where there is one, is at 0. A refusal changes
/// nothing.
pub fn store(
    profile: Profile,
    sheet: &[u8],
    heap: &mut [u8],
    records: &[u8],
    address: u32,
    offset: u32,
    bytes: &[u8],
) -> Result<(), Refusal> {
    store_answer(profile, sheet, heap, records, address, offset, bytes).done()
}

/// As `store`, with the answer as the library gives it.
pub fn store_answer(
    profile: Profile,
    sheet: &[u8],
    heap: &mut [u8],
    records: &[u8],
    address: u32,
    offset: u32,
    bytes: &[u8],
) -> Answer {
    // SAFETY: each pointer comes with the length of its own slice, and nothing else
    // can reach `heap` before the call returns.
    let answer = unsafe {
        ffi::cg_store(
            profile.is_userland(),
            sheet.as_ptr(),
            sheet.len(),
            heap.as_mut_ptr(),
            heap.len(),
            records.as_ptr(),
            records.len(),
            address,
            offset,
            bytes.as_ptr(),
            bytes.len(),
        )
    };
    Answer(answer)
}
