//! What the report says below of each hurt buffer.

use reference::Verdict;

use super::chunk::{window, Shown};
use super::dump::Dump;
use super::report::{address_text, buffer_words};
use super::transaction::transaction_text;
use crate::table;

/// The report's last line, where there was a part and no `--now`.
pub const NO_NOW: &str =
    "no --now: latest is right if the uptime has not wrapped (it does every 49.7 days)";

/// The parts of all buffers with a fault, each behind an empty line.
pub fn evidence(dump: &Dump) -> String {
    let faults = (0..dump.count()).filter(|index| dump.verdicts[*index].number() >= 20);
    let parts: Vec<String> = faults.map(|index| part(dump, index)).collect();
    let mut text = parts.concat();
    if !parts.is_empty() && dump.now.is_none() {
        text += &format!("\n{NO_NOW}\n");
    }
    text
}

/// An empty line, the line that names the buffer, and the others behind two spaces.
fn part(dump: &Dump, index: usize) -> String {
    let mut text = format!("\n{}\n", title(dump, index));
    for line in lines(dump, index) {
        text += &format!("  {line}\n");
    }
    text
}

fn title(dump: &Dump, index: usize) -> String {
    let address = address_text(dump.buffer_address(index));
    format!("buffer {index} at {address}: {}", fault(dump, index))
}

fn fault(dump: &Dump, index: usize) -> String {
    let (number, value) = (dump.verdicts[index].number(), dump.verdicts[index].value());
    let name = &table::verdict(number).name;
    let offset = match number {
        25 | 26 | 28 => format!(" at offset {value}"),
        _ => String::new(),
    };
    format!("fault {number}, {name}{offset}")
}

/// A word and what is said under it.
fn line(word: &str, rest: impl AsRef<str>) -> String {
    format!("{word:<11}{}", rest.as_ref())
}

fn lines(dump: &Dump, index: usize) -> Vec<String> {
    let row = table::verdict(dump.verdicts[index].number());
    let mut lines = vec![line("words", &row.words), line("look", &row.look)];
    lines.extend(shown_lines(dump, index));
    lines.extend(found_words(dump, index));
    lines.push(line("latest", transaction_text(&dump.latest(index))));
    lines.push(line("left", left(dump, index)));
    lines
}

/// The bytes that are found and those that are expected, and a mark below the hurt one.
fn shown_lines(dump: &Dump, index: usize) -> Vec<String> {
    let Some(shown) = window(dump, index) else {
        return Vec::new();
    };
    let Shown {
        start,
        found,
        expected,
    } = shown;
    let address = address_text(dump.buffer_address(index) + start as u32);
    let found: Vec<String> = found.iter().map(|byte| format!("{byte:02x}")).collect();
    let expected = expected.iter().map(|byte| match byte {
        Some(byte) => format!("{byte:02x}"),
        None => String::from(".."),
    });
    let expected: Vec<String> = expected.collect();
    let found = format!("{address}  {}", found.join(" "));
    let gap = " ".repeat(15);
    let mut lines = vec![
        line("found", found),
        format!("expected{gap}{}", expected.join(" ")),
    ];
    if dump.verdicts[index] != Verdict::BadHeader {
        let place = dump.verdicts[index].value() as usize - start;
        // Below `expected` and its 15 spaces, and three characters for each byte before.
        lines.push(format!("{}^^", " ".repeat(8 + 15 + 3 * place)));
    }
    lines
}

/// The words of the image that the verdict goes by.
fn found_words(dump: &Dump, index: usize) -> Vec<String> {
    match dump.verdicts[index].number() {
        20 => vec![line("records", records(dump, index))],
        21 => vec![line("tag", tag(dump, index)), line("own", own(dump, index))],
        22..=24 => vec![
            line("chain", chain(dump, index)),
            line("magazines", magazines(dump, index)),
        ],
        27 | 28 | 30..=32 => vec![line("size code", size_code(dump, index))],
        _ => Vec::new(),
    }
}

fn records(dump: &Dump, index: usize) -> String {
    let namers = dump.namers(index);
    if namers.is_empty() {
        return String::from("none names it");
    }
    let namers: Vec<String> = namers.iter().map(usize::to_string).collect();
    format!("{} name it", namers.join(", "))
}

fn tag(dump: &Dump, index: usize) -> String {
    let (t0, t1) = (dump.word_behind(index, 8), dump.word_behind(index, 12));
    let both = t0 ^ t1;
    format!("T0 0x{t0:08x}, T1 0x{t1:08x}, T0 xor T1 0x{both:08x}")
}

/// A buffer that gets 21 has a record of its own: 20 comes before (J2).
fn own(dump: &Dump, index: usize) -> String {
    let own = dump.namers(index)[0];
    format!("record {own} at {}", address_text(dump.record_address(own)))
}

fn chain(dump: &Dump, index: usize) -> String {
    match dump.place(index) {
        None => String::from("not met"),
        Some(place) => format!("place {place} of {}", dump.chain.met.len()),
    }
}

fn magazines(dump: &Dump, index: usize) -> String {
    match dump.listed(index) {
        1 => String::from("listed 1 time"),
        times => format!("listed {times} times"),
    }
}

/// R1 is the redzone's word after a whole grant (C6), else a code or what was one.
fn size_code(dump: &Dump, index: usize) -> String {
    let r1 = dump.r1(index);
    if r1 == 0xfeed_face {
        return String::from("R1 0xfeedface, the whole buffer");
    }
    format!("R1 0x{r1:08x}, which is 251 * {} + {}", r1 / 251, r1 % 251)
}

/// The buffer before it in memory, by its fault or its words.
fn left(dump: &Dump, index: usize) -> String {
    let Some(left) = index.checked_sub(1) else {
        return String::from("none, it is the first buffer");
    };
    let address = address_text(dump.buffer_address(left));
    let state = match dump.verdicts[left].number() {
        20.. => fault(dump, left),
        _ => buffer_words(dump, left),
    };
    let latest = transaction_text(&dump.latest(left));
    format!("buffer {left} at {address}: {state}; latest {latest}")
}
