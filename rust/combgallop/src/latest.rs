//! The latest transaction of a buffer.

use crate::{ffi, Answer, Profile, Refusal};

/// What a record's index is added to in the answer, which sets it apart from a row.
const RECORD_MARK: u32 = 0x8000_0000;

/// Where the latest transaction stands: a row of the log or a record, by its number.
#[derive(Clone, Copy, PartialEq, Eq, Debug)]
pub enum Latest {
    Row(usize),
    Record(usize),
}

/// The youngest of a buffer's own record and the log's rows that name it, at the
/// uptime `now`.
pub fn latest(
    profile: Profile,
    sheet: &[u8],
    heap: &[u8],
    records: &[u8],
    log: &[u8],
    index: u32,
    now: u32,
) -> Result<Latest, Refusal> {
    let value = latest_answer(profile, sheet, heap, records, log, index, now).value()?;
    Ok(match value.checked_sub(RECORD_MARK) {
        Some(record) => Latest::Record(record as usize),
        None => Latest::Row(value as usize),
    })
}

/// As `latest`, with the answer as the library gives it.
pub fn latest_answer(
    profile: Profile,
    sheet: &[u8],
    heap: &[u8],
    records: &[u8],
    log: &[u8],
    index: u32,
    now: u32,
) -> Answer {
    // SAFETY: each pointer comes with the length of its own slice.
    let answer = unsafe {
        ffi::cg_latest(
            profile.is_userland(),
            sheet.as_ptr(),
            sheet.len(),
            heap.as_ptr(),
            heap.len(),
            records.as_ptr(),
            records.len(),
            log.as_ptr(),
            log.len(),
            index,
            now,
        )
    };
    Answer(answer)
}
