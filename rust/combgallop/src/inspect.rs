//! The findings of an image.

use crate::{ffi, Answer, Findings, Profile, Refusal};

/// Judges every buffer. Fills three of the numbers lent for each: its index, its
/// verdict's number, and the size or offset that the verdict has, else 0; and hands
/// back what they say. Numbers past those stay. A refusal changes nothing.
///
/// `magazines` is what the magazines hold: the addresses of buffers, in any order, at most as
/// many as there are buffers. It is empty where there are no magazines.
///
/// ```
/// use combgallop::{inspect, lay_out, Order, Profile, Refusal, Verdict};
///
/// let (mut sheet, mut heap, mut records) = ([0; 52], [0; 2 * 24], [0; 2 * 96]);
/// let (profile, order) = (Profile::Kernel, Order::HighFirst);
/// lay_out(
///     profile, order, 0x70, 0x1000, 0x2000, 8, 2, &mut sheet, &mut heap, &mut records,
/// )?;
/// // The chain now starts at the second record: the first buffer is in a magazine.
/// sheet[39..43].copy_from_slice(&0x2060_u32.to_be_bytes());
/// let mut rows = [0; 6];
/// let found = inspect(profile, &sheet, &heap, &records, &[0x1000], &mut rows)?;
/// let verdicts: Vec<Verdict> = found.map(|finding| finding.verdict).collect();
/// assert_eq!(verdicts, [Verdict::Cached, Verdict::Free]);
///
/// let found = inspect(profile, &sheet, &heap, &records, &[], &mut rows)?;
/// let verdicts: Vec<Verdict> = found.map(|finding| finding.verdict).collect();
/// assert_eq!(verdicts, [Verdict::OffChain, Verdict::Free]);
///
/// let refused = inspect(profile, &sheet, &heap, &records, &[0x1008], &mut rows);
/// assert_eq!(refused.err(), Some(Refusal::NoSuchBuffer));
/// # Ok::<(), Refusal>(())
/// ```
pub fn inspect<'a>(
    profile: Profile,
    sheet: &[u8],
    heap: &[u8],
    records: &[u8],
    magazines: &[u32],
    rows: &'a mut [u32],
) -> Result<Findings<'a>, Refusal> {
    let count = inspect_answer(profile, sheet, heap, records, magazines, rows).value()?;
    Ok(Findings::new(rows, count))
}

/// As `inspect`, with the answer as the library gives it: the count of buffers.
pub fn inspect_answer(
    profile: Profile,
    sheet: &[u8],
    heap: &[u8],
    records: &[u8],
    magazines: &[u32],
    rows: &mut [u32],
) -> Answer {
    // SAFETY: each pointer comes with the length of its own slice, and nothing else
    // can reach `rows` before the call returns.
    let answer = unsafe {
        ffi::cg_inspect(
            profile.is_userland(),
            sheet.as_ptr(),
            sheet.len(),
            heap.as_ptr(),
            heap.len(),
            records.as_ptr(),
            records.len(),
            magazines.as_ptr(),
            magazines.len(),
            rows.as_mut_ptr(),
            rows.len(),
        )
    };
    Answer(answer)
}
