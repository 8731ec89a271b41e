//! The library's fill test, beside the simpler form of it, and its fill. Byte i of a
//! filled run is byte i mod 4 of the word, the highest first.

use crate::ffi;

/// Where a run first differs from the fill with a word, as the library looks for it.
#[inline]
pub fn first_difference(bytes: &[u8], word: u32) -> Option<usize> {
    // SAFETY: the pointer comes with the length of its own slice.
    let answer = unsafe { ffi::timed_first_difference(bytes.as_ptr(), bytes.len(), word) };
    place(answer)
}

/// The same, one byte after the other.
#[inline]
pub fn difference_by_bytes(bytes: &[u8], word: u32) -> Option<usize> {
    // SAFETY: the pointer comes with the length of its own slice.
    let answer = unsafe { ffi::timed_difference_by_bytes(bytes.as_ptr(), bytes.len(), word) };
    place(answer)
}

/// Fills a run with a word, as the library fills a buffer. False, and nothing is written,
/// where the length is no multiple of 8.
#[inline]
pub fn fill(bytes: &mut [u8], word: u32) -> bool {
    // SAFETY: the pointer comes with the length of its own slice, which nothing else can
    // reach before the call returns.
    unsafe { ffi::timed_fill(bytes.as_mut_ptr(), bytes.len(), word) }
}

/// The highest number stands for nowhere.
#[inline]
fn place(answer: u64) -> Option<usize> {
    (answer != u64::MAX).then_some(answer as usize)
}
