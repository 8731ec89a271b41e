//! The report of an image.

use crate::{ffi, Answer, Profile, Refusal};

/// Fills the start of `output` with the report's text, with a list of magazine words as
/// `inspect` takes it, and answers the text's length; bytes past it stay. A refusal changes
/// nothing.
///
/// ```
/// use combgallop::{lay_out, report, Order, Profile, Refusal};
///
/// let (mut sheet, mut heap, mut records) = ([0; 52], [0; 2 * 24], [0; 2 * 96]);
/// let (profile, order) = (Profile::Kernel, Order::HighFirst);
/// lay_out(
///     profile, order, 0x70, 0x1000, 0x2000, 8, 2, &mut sheet, &mut heap, &mut records,
/// )?;
/// // The chain now starts at the second record: the first buffer is in a magazine.
/// sheet[39..43].copy_from_slice(&0x2060_u32.to_be_bytes());
/// let mut output = [0; 64];
/// let length = report(profile, &sheet, &heap, &records, &[0x1000], &[], &mut output)?;
/// let text = b"heap report 1\n0 cached\n1 free\nchain 1 end\nfaults 0\n";
/// assert_eq!(output[..length], text[..]);
/// # Ok::<(), Refusal>(())
/// ```
pub fn report(
    profile: Profile,
    sheet: &[u8],
    heap: &[u8],
    records: &[u8],
    magazines: &[u32],
    log: &[u8],
    output: &mut [u8],
) -> Result<usize, Refusal> {
    let answer = report_answer(profile, sheet, heap, records, magazines, log, output);
    let length = answer.value()?;
    Ok(length as usize)
}

/// As `report`, with the answer as the library gives it.
pub fn report_answer(
    profile: Profile,
    sheet: &[u8],
    heap: &[u8],
    records: &[u8],
    magazines: &[u32],
    log: &[u8],
    output: &mut [u8],
) -> Answer {
    // SAFETY: each pointer comes with the length of its own slice, and nothing else
    // can reach `output` before the call returns.
    let answer = unsafe {
        ffi::cg_report(
            profile.is_userland(),
            sheet.as_ptr(),
            sheet.len(),
            heap.as_ptr(),
            heap.len(),
            records.as_ptr(),
            records.len(),
            magazines.as_ptr(),
            magazines.len(),
            log.as_ptr(),
            log.len(),
            output.as_mut_ptr(),
            output.len(),
        )
    };
    Answer(answer)
}
