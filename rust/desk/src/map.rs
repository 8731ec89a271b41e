//! One cell for each buffer, in the order of the addresses.

use std::collections::BTreeMap;

use combgallop::{Meaning, Verdict};

use crate::found::{Buffer, Found};
use crate::words;

/// How many cells a line has, and how wide they are.
const CELLS: usize = 8;
const WIDTH: usize = 7;

const NO_COLOUR: &str = "\x1b[0m";

pub fn text(found: &Found, is_coloured: bool) -> String {
    let mut text = format!("{}\n", heading(found));
    for buffers in found.buffers.chunks(CELLS) {
        text += &words::address(buffers[0].address);
        text += " ";
        text += &cells(buffers, is_coloured);
        text += "\n";
    }
    text += "\n";
    for (meaning, state, count) in counts(found) {
        text += &format!("{state:3}  {count:3}  {}\n", meaning.words);
    }
    if !found.met.is_empty() {
        text += "@K        the chain's K-th record is the buffer's\n";
    }
    text += &format!("{}\n", words::chain_line(found.chain));
    text
}

/// How many buffers there are, of which size, and where.
pub fn heading(found: &Found) -> String {
    let sheet = found.image.sheet();
    let plural = if sheet.count == 1 { "" } else { "s" };
    format!(
        "{} buffer{plural} of {} bytes from {} on, {} bytes apart",
        sheet.count,
        sheet.buffer_size,
        words::address(sheet.heap_base),
        sheet.chunk_size
    )
}

/// The cells of a line. What is behind the last one is cut: no line ends in a space.
fn cells(buffers: &[Buffer], is_coloured: bool) -> String {
    let mut text = String::new();
    let mut gap = 1;
    for buffer in buffers {
        let cell = cell(buffer);
        text += &" ".repeat(gap);
        gap = WIDTH + 1 - cell.len();
        if is_coloured {
            text += &format!("{}{cell}{NO_COLOUR}", colour(buffer.verdict));
        } else {
            text += &cell;
        }
    }
    text
}

fn cell(buffer: &Buffer) -> String {
    let state = state(buffer.verdict);
    match buffer.place {
        Some(place) => format!("{state}@{place}"),
        None => state,
    }
}

/// The letter of a state, or the number of a fault.
fn state(verdict: Verdict) -> String {
    String::from(match verdict {
        Verdict::Free => "f",
        Verdict::Whole => "w",
        Verdict::Allocated(_) => "a",
        Verdict::Cached => "c",
        fault => return format!("!{}", fault.number()),
    })
}

fn colour(verdict: Verdict) -> &'static str {
    match verdict {
        Verdict::Free => "\x1b[32m",
        Verdict::Whole | Verdict::Allocated(_) => "\x1b[34m",
        Verdict::Cached => "\x1b[36m",
        _ => "\x1b[1;31m",
    }
}

/// The verdicts that are met, in the order of their numbers, and how often each is.
pub fn counts(found: &Found) -> Vec<(&'static Meaning, String, usize)> {
    let mut counts = BTreeMap::new();
    for Buffer { verdict, .. } in &found.buffers {
        let row = (verdict.meaning(), state(*verdict), 0);
        counts.entry(verdict.number()).or_insert(row).2 += 1;
    }
    counts.into_values().collect()
}
