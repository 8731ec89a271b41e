//! The report program: what it writes for what it reads.

use crate::profile::Profile;
use crate::refusal::Refusal;
use crate::report::report_text;
use crate::sheet::area_lengths;

/// "The program keeps the old one."
const PROFILE: Profile = Profile::Kernel;

/// "The program's input stays, with an empty list."
const MAGAZINES: &[u32] = &[];

/// What the program writes to standard output for a given standard input: the
/// report, or "`refused N` and a line feed".
pub fn program(input: &[u8]) -> Vec<u8> {
    let text = match answer(input) {
        Ok(text) => text,
        Err(refusal) => format!("refused {}\n", refusal.number),
    };
    text.into_bytes()
}

/// "The program's input now starts with one byte, the sheet's length"; then "sheet,
/// heap, records and then log". "All that follows the records is the log."
fn answer(input: &[u8]) -> Result<String, Refusal> {
    let (sheet, rest) = split_sheet(input).ok_or(Refusal::plain(1))?;
    let (heap_length, record_length) = area_lengths(PROFILE, sheet)?;
    let (heap, rest) = split_area(rest, heap_length);
    let (records, log) = split_area(rest, record_length);
    report_text(PROFILE, sheet, heap, records, MAGAZINES, log)
}

/// The sheet by its length byte, and what follows it. "Input that ends early makes
/// the sheet (1) wrong": none if there is no length byte, or if fewer bytes follow
/// than it says, even if what follows is of the shorter form.
fn split_sheet(input: &[u8]) -> Option<(&[u8], &[u8])> {
    let (length, rest) = input.split_first()?;
    rest.split_at_checked(usize::from(*length))
}

/// The bytes of an area and what follows them. "Input that ends early makes an area
/// (3) wrong": fewer bytes if it does.
fn split_area(input: &[u8], length: usize) -> (&[u8], &[u8]) {
    input.split_at(length.min(input.len()))
}
