//! The report's text.

use crate::areas::Areas;
use crate::chain::{walk, Chain, Ending};
use crate::inspect::judge;
use crate::magazines::listings;
use crate::profile::Profile;
use crate::refusal::Refusal;
use crate::verdict::Verdict;

/// "The call answers the length filled; output past it stays."
/// Refusals 1, 2, 3, 4 by the magazine list, then 11, "output shorter than the exact
/// need".
pub fn report(
    profile: Profile,
    sheet: &[u8],
    heap: &[u8],
    records: &[u8],
    magazines: &[u32],
    log: &[u8],
    output: &mut [u8],
) -> Result<usize, Refusal> {
    let text = report_text(profile, sheet, heap, records, magazines, log)?;
    if output.len() < text.len() {
        return Err(Refusal::plain(11));
    }
    output[..text.len()].copy_from_slice(text.as_bytes());
    Ok(text.len())
}

/// The whole report, "one line per item", or refusal 1, 2, 3 or, "right after 3", 4.
pub fn report_text(
    profile: Profile,
    sheet: &[u8],
    heap: &[u8],
    records: &[u8],
    magazines: &[u32],
    log: &[u8],
) -> Result<String, Refusal> {
    let areas = Areas::read_with_log(profile, sheet, heap, records, log)?;
    let listed = listings(&areas, magazines)?;
    let chain = walk(&areas);
    let verdicts = judge(&areas, &chain, &listed);
    let faults = verdicts.iter().filter(|verdict| is_fault(**verdict));

    let mut text = String::from("heap report 1\n");
    for (index, verdict) in verdicts.iter().enumerate() {
        text += &buffer_line(index, *verdict);
    }
    text += &chain_line(&chain);
    text += &format!("faults {}\n", faults.count());
    Ok(text)
}

/// "A fault is a verdict of 20 or more."
fn is_fault(verdict: Verdict) -> bool {
    verdict.number() >= 20
}

/// "`I free`, `I whole`, `I allocated S`, `I fault V` or, for 25, 26 and 28,
/// `I fault V OFFSET`." For 3, "the report line is `I cached`".
fn buffer_line(index: usize, verdict: Verdict) -> String {
    let value = verdict.value();
    match verdict.number() {
        0 => format!("{index} free\n"),
        1 => format!("{index} whole\n"),
        2 => format!("{index} allocated {value}\n"),
        3 => format!("{index} cached\n"),
        number @ (25 | 26 | 28) => format!("{index} fault {number} {value}\n"),
        number => format!("{index} fault {number}\n"),
    }
}

/// "`chain K end`, `chain K broken` or `chain K again R`, K records met and R a
/// record index."
fn chain_line(chain: &Chain) -> String {
    let met = chain.met.len();
    match chain.ending {
        Ending::End => format!("chain {met} end\n"),
        Ending::Broken => format!("chain {met} broken\n"),
        Ending::Again(record) => format!("chain {met} again {record}\n"),
    }
}
