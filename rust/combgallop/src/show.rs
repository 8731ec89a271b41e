//! What a client has written.

use crate::{ffi, Answer, Profile, Refusal};

/// Hands back the client's bytes of the buffer at an address, as a part of the heap: those
/// behind the header where there is one.
pub fn show<'a>(
    profile: Profile,
    sheet: &[u8],
    heap: &'a [u8],
    records: &[u8],
    address: u32,
) -> Result<&'a [u8], Refusal> {
    let answer = show_answer(profile, sheet, heap, records, address);
    let length = answer.value()?;
    // The library has found a sheet, and a buffer at the address.
    let buffer = (address - heap_base(sheet)) as usize;
    let start = buffer + usize::from(answer.start());
    Ok(&heap[start..start + length as usize])
}

/// The body of a sheet's second field, which stands high byte first in every image.
fn heap_base(sheet: &[u8]) -> u32 {
    u32::from_be_bytes([sheet[10], sheet[11], sheet[12], sheet[13]])
}

/// The count of the client's bytes, and where in the buffer they start; the answer is as
/// the library gives it.
pub fn show_answer(
    profile: Profile,
    sheet: &[u8],
    heap: &[u8],
    records: &[u8],
    address: u32,
) -> Answer {
    // SAFETY: each pointer comes with the length of its own slice.
    let answer = unsafe {
        ffi::cg_show(
            profile.is_userland(),
            sheet.as_ptr(),
            sheet.len(),
            heap.as_ptr(),
            heap.len(),
            records.as_ptr(),
            records.len(),
            address,
        )
    };
    Answer(answer)
}
