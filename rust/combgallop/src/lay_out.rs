//! A fresh image.

use crate::{ffi, Answer, Order, Profile, Refusal};

/// Writes all three areas: `count` free buffers of `size` bytes, buffer i paired with
/// record i, and the chain through them in order. The records are those of the profile. The
/// words of heap and records stand in the order given, which the sheet then says; the sheet
/// takes 52 bytes. A refusal changes nothing.
pub fn lay_out(
    profile: Profile,
    order: Order,
    cache: u32,
    heap_base: u32,
    record_base: u32,
    size: u32,
    count: u32,
    sheet: &mut [u8],
    heap: &mut [u8],
    records: &mut [u8],
) -> Result<(), Refusal> {
    let answer = lay_out_answer(
        profile,
        order,
        cache,
        heap_base,
        record_base,
        size,
        count,
        sheet,
        heap,
        records,
    );
    answer.done()
}

/// As `lay_out`, with the answer as the library gives it.
pub fn lay_out_answer(
    profile: Profile,
    order: Order,
    cache: u32,
    heap_base: u32,
    record_base: u32,
    size: u32,
    count: u32,
    sheet: &mut [u8],
    heap: &mut [u8],
    records: &mut [u8],
) -> Answer {
    // SAFETY: each pointer comes with the length of its own slice, and nothing else
    // can reach the three areas before the call returns.
    let answer = unsafe {
        ffi::cg_lay_out(
            profile.is_userland(),
            order.is_low_first(),
            cache,
            heap_base,
            record_base,
            size,
            count,
            sheet.as_mut_ptr(),
            sheet.len(),
            heap.as_mut_ptr(),
            heap.len(),
            records.as_mut_ptr(),
            records.len(),
        )
    };
    Answer(answer)
}
