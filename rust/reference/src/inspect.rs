//! The verdict on each buffer, "first rule that holds".

use crate::areas::Areas;
use crate::chain::{walk, Chain, Ending};
use crate::chunk::{Chunk, Pattern};
use crate::magazines::listings;
use crate::profile::Profile;
use crate::refusal::Refusal;
use crate::verdict::Verdict;

/// "Each holds index and verdict, with its size or offset."
#[derive(Clone, Copy, PartialEq, Eq, Debug, Default)]
pub struct Finding {
    pub index: u32,
    pub verdict: Verdict,
}

/// "Inspect fills a lent row of findings, one record per buffer, rows past n
/// untouched." Answers n. Refusals 1, 2, 3, then 4 by the magazine list, then 11.
pub fn inspect(
    profile: Profile,
    sheet: &[u8],
    heap: &[u8],
    records: &[u8],
    magazines: &[u32],
    rows: &mut [Finding],
) -> Result<usize, Refusal> {
    let areas = Areas::read(profile, sheet, heap, records)?;
    let listed = listings(&areas, magazines)?;
    if rows.len() < areas.count() {
        return Err(Refusal::plain(11));
    }
    let verdicts = judge(&areas, &walk(&areas), &listed);
    for (index, (row, verdict)) in rows.iter_mut().zip(verdicts).enumerate() {
        *row = Finding {
            index: index as u32,
            verdict,
        };
    }
    Ok(areas.count())
}

/// The verdict on every buffer, in the order of their indexes, with how often each is
/// listed.
pub fn judge(areas: &Areas, chain: &Chain, listed: &[usize]) -> Vec<Verdict> {
    let mut is_met = vec![false; areas.count()];
    for &record in &chain.met {
        is_met[record] = true;
    }
    areas
        .own_records()
        .into_iter()
        .zip(listed)
        .enumerate()
        .map(|(buffer, (own_record, &listed))| match own_record {
            None => Verdict::NotNamedOnce,
            Some(own) => judge_buffer(areas, buffer, own, is_met[own], chain.ending, listed),
        })
        .collect()
}

/// The rules from 21 on, for a buffer that has its own record. "Of any pattern, listed
/// twice or more, or listed and on the chain, it is 22; otherwise, listed with the
/// allocated pattern, 24. Off both, 23 stays."
fn judge_buffer(
    areas: &Areas,
    buffer: usize,
    own_record: usize,
    is_met: bool,
    ending: Ending,
    listed: usize,
) -> Verdict {
    let chunk = areas.chunk(buffer);
    if chunk.t0() != areas.record_address(own_record) {
        return Verdict::BadTag;
    }
    let Some(pattern) = chunk.pattern() else {
        return Verdict::BadTag;
    };
    let is_listed = listed > 0;
    if ending == Ending::Again(own_record) || listed >= 2 || (is_listed && is_met) {
        return Verdict::FreedTwice;
    }
    match pattern {
        Pattern::Free if is_met => chunk.judge_free(),
        Pattern::Free if is_listed => judge_cached(chunk),
        Pattern::Free => Verdict::FreeNotMet,
        Pattern::Allocated if is_met || is_listed => Verdict::AllocatedMet,
        Pattern::Allocated => chunk.judge_allocated(),
    }
}

/// "A free-pattern buffer off the chain and listed once is the new verdict 3, cached",
/// "after its fill and redzone pass rules 25 and 26".
fn judge_cached(chunk: Chunk) -> Verdict {
    match chunk.judge_free() {
        Verdict::Free => Verdict::Cached,
        fault => fault,
    }
}
