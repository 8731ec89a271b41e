//! The findings of an image, and its chain.

use crate::{ffi, Answer, Chain, Findings, Profile, Refusal};

/// What is found of every buffer, and of the chain.
#[derive(Clone, Debug)]
pub struct Survey<'a> {
    pub findings: Findings<'a>,
    pub chain: Chain,
}

/// Judges every buffer, with a list of magazine words as `inspect` takes it, and walks the
/// chain. Fills three of the numbers lent for each buffer, as `inspect` does, and hands back
/// what they say. A refusal changes nothing.
///
/// ```
/// use combgallop::{lay_out, survey, Chain, Ending, Order, Profile, Refusal, Verdict};
///
/// let (mut sheet, mut heap, mut records) = ([0; 52], [0; 2 * 24], [0; 2 * 96]);
/// let (profile, order) = (Profile::Kernel, Order::HighFirst);
/// lay_out(
///     profile, order, 0x70, 0x1000, 0x2000, 8, 2, &mut sheet, &mut heap, &mut records,
/// )?;
/// // The chain now starts at the second record: the first buffer is in a magazine.
/// sheet[39..43].copy_from_slice(&0x2060_u32.to_be_bytes());
/// let mut rows = [0; 6];
/// let found = survey(profile, &sheet, &heap, &records, &[0x1000], &[], &mut rows)?;
/// let verdicts: Vec<Verdict> = found.findings.map(|finding| finding.verdict).collect();
/// assert_eq!(verdicts, [Verdict::Cached, Verdict::Free]);
/// let ending = Ending::End;
/// assert_eq!(found.chain, Chain { met: 1, ending });
/// # Ok::<(), Refusal>(())
/// ```
pub fn survey<'a>(
    profile: Profile,
    sheet: &[u8],
    heap: &[u8],
    records: &[u8],
    magazines: &[u32],
    log: &[u8],
    rows: &'a mut [u32],
) -> Result<Survey<'a>, Refusal> {
    let mut chain = [0; 3];
    let answer = survey_answer(
        profile, sheet, heap, records, magazines, log, rows, &mut chain,
    );
    let count = answer.value()?;
    Ok(Survey {
        findings: Findings::new(rows, count),
        chain: Chain::new(chain),
    })
}

/// As `survey`, with the answer as the library gives it: the count of buffers. Fills
/// three numbers for the chain: records met; 0 for its end, 1 where it is broken, 2
/// where it comes back to a record; that record's index, else 0. Numbers past those stay.
pub fn survey_answer(
    profile: Profile,
    sheet: &[u8],
    heap: &[u8],
    records: &[u8],
    magazines: &[u32],
    log: &[u8],
    rows: &mut [u32],
    chain: &mut [u32],
) -> Answer {
    // SAFETY: each pointer comes with the length of its own slice, and nothing else
    // can reach `rows` and `chain` before the call returns.
    let answer = unsafe {
        ffi::cg_survey(
            profile.is_userland(),
            sheet.as_ptr(),
            sheet.len(),
            heap.as_ptr(),
            heap.len(),
            records.as_ptr(),
            records.len(),
            magazines.as_ptr(),
            magazines.len(),
            log.as_ptr(),
            log.len(),
            rows.as_mut_ptr(),
            rows.len(),
            chain.as_mut_ptr(),
            chain.len(),
        )
    };
    Answer(answer)
}
