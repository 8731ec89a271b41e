//! The grant of a buffer.

use crate::{ffi, Answer, Grant, Profile, Refusal};

/// Grants the buffer of the chain's first record and answers its address; the record is
/// stamped with uptime and thread, which is not 0. A refusal changes nothing.
pub fn allocate(
    profile: Profile,
    sheet: &mut [u8],
    heap: &mut [u8],
    records: &mut [u8],
    grant: Grant,
    uptime: u32,
    thread: u32,
) -> Result<u32, Refusal> {
    allocate_answer(profile, sheet, heap, records, grant, uptime, thread).value()
}

/// As `allocate`, with the answer as the library gives it.
pub fn allocate_answer(
    profile: Profile,
    sheet: &mut [u8],
    heap: &mut [u8],
    records: &mut [u8],
    grant: Grant,
    uptime: u32,
    thread: u32,
) -> Answer {
    let (whole, size) = grant.numbers();
    // SAFETY: each pointer comes with the length of its own slice, and nothing else
    // can reach the three areas before the call returns.
    let answer = unsafe {
        ffi::cg_allocate(
            profile.is_userland(),
            sheet.as_mut_ptr(),
            sheet.len(),
            heap.as_mut_ptr(),
            heap.len(),
            records.as_mut_ptr(),
            records.len(),
            whole,
            size,
            uptime,
            thread,
        )
    };
    Answer(answer)
}
