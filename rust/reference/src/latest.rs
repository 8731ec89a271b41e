//! The latest transaction of a buffer.

use crate::areas::Areas;
use crate::profile::Profile;
use crate::record::ROW_SIZE;
use crate::refusal::Refusal;
use crate::words::word;

/// "Either the log row or the record": a row's number or a record's index.
#[derive(Clone, Copy, PartialEq, Eq, Debug)]
pub enum Latest {
    Row(usize),
    Record(usize),
}

/// "The smallest age among rows naming its record and the record itself. On a tie
/// a row wins over the record and a later row over an earlier."
/// Refusals 1, 2, 3, then "4, 7 with 20, 12".
pub fn latest(
    profile: Profile,
    sheet: &[u8],
    heap: &[u8],
    records: &[u8],
    log: &[u8],
    index: u32,
    now: u32,
) -> Result<Latest, Refusal> {
    let areas = Areas::read_with_log(profile, sheet, heap, records, log)?;
    if index >= areas.sheet.count {
        return Err(Refusal::plain(4));
    }
    let own_record = areas.own_records()[index as usize].ok_or(Refusal::damage(20))?;
    let mut smallest = age(now, narrow(areas.record_stamp(own_record))?);
    let mut answer = Latest::Record(own_record);
    let order = areas.sheet.order;
    for (number, row) in log.chunks_exact(ROW_SIZE).enumerate() {
        let names_own_record = word(order, row, 0) == areas.record_address(own_record);
        let row_age = age(now, word(order, row, 4));
        if names_own_record && row_age <= smallest {
            smallest = row_age;
            answer = Latest::Row(number);
        }
    }
    Ok(answer)
}

/// Refusal 12, "record stamp with a non-zero high half"; else its low half.
fn narrow(stamp: u64) -> Result<u32, Refusal> {
    u32::try_from(stamp).map_err(|_| Refusal::plain(12))
}

/// "Age is now minus stamp modulo 2^32."
fn age(now: u32, stamp: u32) -> u32 {
    now.wrapping_sub(stamp)
}
