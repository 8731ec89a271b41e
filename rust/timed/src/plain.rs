//! Inspect, the latest transaction, allocate and free in plain C, for the kernel profile.
//! Each answers as the library's call does.

use crate::ffi;

/// Judges every buffer, with a list of magazine words, and fills the rows as the library's
/// inspect does.
#[inline]
pub fn plain_inspect(
    sheet: &[u8],
    heap: &[u8],
    records: &[u8],
    magazines: &[u32],
    rows: &mut [u32],
) -> u64 {
    // SAFETY: each pointer comes with the length of its own slice, and nothing else
    // can reach `rows` before the call returns.
    unsafe {
        ffi::plain_inspect(
            sheet.as_ptr(),
            sheet.len(),
            heap.as_ptr(),
            heap.len(),
            records.as_ptr(),
            records.len(),
            magazines.as_ptr(),
            magazines.len(),
            rows.as_mut_ptr(),
            rows.len(),
        )
    }
}

/// Finds the latest transaction of the buffer with an index.
#[inline]
pub fn plain_latest(
    sheet: &[u8],
    heap: &[u8],
    records: &[u8],
    log: &[u8],
    index: u32,
    now: u32,
) -> u64 {
    // SAFETY: each pointer comes with the length of its own slice.
    unsafe {
        ffi::plain_latest(
            sheet.as_ptr(),
            sheet.len(),
            heap.as_ptr(),
            heap.len(),
            records.as_ptr(),
            records.len(),
            log.as_ptr(),
            log.len(),
            index,
            now,
        )
    }
}

/// Grants the buffer of the chain's first record: so many bytes of it, or all of it where
/// no size is given.
#[inline]
pub fn plain_allocate(
    sheet: &mut [u8],
    heap: &mut [u8],
    records: &mut [u8],
    size: Option<u32>,
    uptime: u32,
    thread: u32,
) -> u64 {
    // SAFETY: each pointer comes with the length of its own slice, and nothing else can
    // reach the areas before the call returns.
    unsafe {
        ffi::plain_allocate(
            sheet.as_mut_ptr(),
            sheet.len(),
            heap.as_mut_ptr(),
            heap.len(),
            records.as_mut_ptr(),
            records.len(),
            size.is_none(),
            size.unwrap_or(0),
            uptime,
            thread,
        )
    }
}

/// Takes back the buffer at an address, which was granted with so many bytes, or whole
/// where no size is given.
#[inline]
pub fn plain_free(
    sheet: &mut [u8],
    heap: &mut [u8],
    records: &mut [u8],
    address: u32,
    size: Option<u32>,
    uptime: u32,
    thread: u32,
) -> u64 {
    // SAFETY: each pointer comes with the length of its own slice, and nothing else can
    // reach the areas before the call returns.
    unsafe {
        ffi::plain_free(
            sheet.as_mut_ptr(),
            sheet.len(),
            heap.as_mut_ptr(),
            heap.len(),
            records.as_mut_ptr(),
            records.len(),
            address,
            size.is_none(),
            size.unwrap_or(0),
            uptime,
            thread,
        )
    }
}
