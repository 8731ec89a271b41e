//! The text of `report`.

use reference::{Ending, Verdict};

use super::dump::Dump;
use super::evidence::evidence;
use crate::table;

/// An address as it is written.
pub fn address_text(address: u32) -> String {
    format!("0x{address:08x}")
}

/// The words of a buffer: those of the table, and the size or where the first hurt byte is.
pub fn buffer_words(dump: &Dump, index: usize) -> String {
    let verdict = dump.verdicts[index];
    let words = &table::verdict(verdict.number()).words;
    let value = verdict.value();
    match verdict {
        Verdict::Allocated(_) => format!("{words}, size {value}"),
        Verdict::FillDiffers(_) | Verdict::RedzoneDiffers(_) | Verdict::GuardDiffers(_) => {
            let first = address_text(dump.buffer_address(index) + value);
            format!("{words}, first at {first}")
        }
        _ => words.clone(),
    }
}

/// The words of the chain.
fn chain_words(ending: Ending) -> String {
    match ending {
        Ending::End => String::from("the chain of free buffers ends"),
        Ending::Broken => String::from("the chain of free buffers leads to no record"),
        Ending::Again(record) => format!("the chain of free buffers comes back to record {record}"),
    }
}

/// The whole text.
pub fn report_text(dump: &Dump) -> String {
    let lines: Vec<&str> = dump.report.lines().collect();
    let [first, columns @ .., last] = &lines[..] else {
        panic!("a report has more than two lines");
    };
    let width = columns.iter().map(|line| line.len()).max().unwrap_or(0);
    let (chain, buffers) = columns.split_last().expect("the line of the chain");
    let mut text = format!("{first}\n");
    for (index, line) in buffers.iter().enumerate() {
        let address = address_text(dump.buffer_address(index));
        let words = buffer_words(dump, index);
        text += &format!("{line:width$}  {address}  {words}\n");
    }
    let words = chain_words(dump.chain.ending);
    let no_address = " ".repeat(12);
    text += &format!("{chain:width$}{no_address}  {words}\n");
    text += &format!("{last}\n");
    text + &evidence(dump)
}
