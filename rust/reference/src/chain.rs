//! The chain of free records.

use crate::areas::Areas;
use crate::profile::Profile;
use crate::record::NEXT_AT;
use crate::refusal::Refusal;

/// How a chain stops.
#[derive(Clone, Copy, PartialEq, Eq, Debug)]
pub enum Ending {
    End,
    Broken,
    /// The index of the record already met.
    Again(usize),
}

/// The indexes of the records met, in order, and how the chain stops.
#[derive(Clone, PartialEq, Eq, Debug)]
pub struct Chain {
    pub met: Vec<usize>,
    pub ending: Ending,
}

/// The chain of an image, or refusal 1, 2 or 3.
pub fn chain(
    profile: Profile,
    sheet: &[u8],
    heap: &[u8],
    records: &[u8],
) -> Result<Chain, Refusal> {
    Ok(walk(&Areas::read(profile, sheet, heap, records)?))
}

/// "It starts at the head. It ends at 0, is broken at a word that is no record's
/// address, and is 'again' at a record already met, which is not counted twice."
pub fn walk(areas: &Areas) -> Chain {
    let mut met = Vec::new();
    let mut is_met = vec![false; areas.count()];
    let mut link = areas.sheet.head;
    let ending = loop {
        if link == 0 {
            break Ending::End;
        }
        let Some(record) = areas.record_at(link) else {
            break Ending::Broken;
        };
        if is_met[record] {
            break Ending::Again(record);
        }
        is_met[record] = true;
        met.push(record);
        link = areas.record_word(record, NEXT_AT);
    };
    Chain { met, ending }
}
