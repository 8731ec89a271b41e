//! The return of a buffer.

use crate::{ffi, Answer, Grant, Profile, Refusal};

/// Takes back the buffer at an address, with the grant it was handed out with; its
/// record becomes the chain's first and is stamped with uptime and thread, which is not
/// 0. A refusal changes nothing.
pub fn free(
    profile: Profile,
    sheet: &mut [u8],
    heap: &mut [u8],
    records: &mut [u8],
    address: u32,
    grant: Grant,
    uptime: u32,
    thread: u32,
) -> Result<(), Refusal> {
    free_answer(
        profile, sheet, heap, records, address, grant, uptime, thread,
    )
    .done()
}

/// As `free`, with the answer as the library gives it.
pub fn free_answer(
    profile: Profile,
    sheet: &mut [u8],
    heap: &mut [u8],
    records: &mut [u8],
    address: u32,
    grant: Grant,
    uptime: u32,
    thread: u32,
) -> Answer {
    let (whole, size) = grant.numbers();
    // SAFETY: each pointer comes with the length of its own slice, and nothing else
    // can reach the three areas before the call returns.
    let answer = unsafe {
        ffi::cg_free(
            profile.is_userland(),
            sheet.as_mut_ptr(),
            sheet.len(),
            heap.as_mut_ptr(),
            heap.len(),
            records.as_mut_ptr(),
            records.len(),
            address,
            whole,
            size,
            uptime,
            thread,
        )
    };
    Answer(answer)
}
