//! The text of `map`, without colours.

use std::collections::BTreeMap;

use super::dump::Dump;
use super::report::address_text;
use crate::table;

/// How many buffers stand in a line.
const IN_A_LINE: usize = 8;

/// The sign of a verdict.
fn sign(number: u32) -> String {
    match number {
        0 => String::from("f"),
        1 => String::from("w"),
        2 => String::from("a"),
        3 => String::from("c"),
        fault => format!("!{fault}"),
    }
}

/// The cell of a buffer: the sign of its verdict, and its place on the chain.
pub fn cell(dump: &Dump, index: usize) -> String {
    let sign = sign(dump.verdicts[index].number());
    match dump.place(index) {
        Some(place) => format!("{sign}@{place}"),
        None => sign,
    }
}

/// The whole text.
pub fn map_text(dump: &Dump) -> String {
    let mut text = first_line(dump);
    let indexes: Vec<usize> = (0..dump.count()).collect();
    for row in indexes.chunks(IN_A_LINE) {
        text += &line_of(dump, row);
    }
    text + "\n" + &legend(dump)
}

fn first_line(dump: &Dump) -> String {
    let buffers = match dump.count() {
        1 => String::from("1 buffer"),
        count => format!("{count} buffers"),
    };
    let numbers = &dump.numbers;
    let (size, step) = (numbers.buffer_size, numbers.chunk_size);
    let base = address_text(numbers.heap_base);
    format!("{buffers} of {size} bytes from {base} on, {step} bytes apart\n")
}

/// Each cell but the last is padded to seven characters, with one space behind it.
fn line_of(dump: &Dump, row: &[usize]) -> String {
    let address = address_text(dump.buffer_address(row[0]));
    let (last, others) = row.split_last().expect("a buffer");
    let others = others
        .iter()
        .map(|index| format!("{:<7} ", cell(dump, *index)));
    let others = others.collect::<String>();
    format!("{address}  {others}{}\n", cell(dump, *last))
}

/// One line for each verdict met, one for the marks of the chain, and the chain's line, as the
/// library's report has it.
fn legend(dump: &Dump) -> String {
    let mut counts: BTreeMap<u32, usize> = BTreeMap::new();
    for verdict in &dump.verdicts {
        *counts.entry(verdict.number()).or_default() += 1;
    }
    let mut text = String::new();
    for (number, count) in counts {
        let (sign, words) = (sign(number), &table::verdict(number).words);
        text += &format!("{sign:<3}  {count:>3}  {words}\n");
    }
    if !dump.chain.met.is_empty() {
        text += "@K        the chain's K-th record is the buffer's\n";
    }
    let mut lines = dump.report.lines();
    let chain = lines.find(|line| line.starts_with("chain "));
    text + chain.expect("the chain's line") + "\n"
}
