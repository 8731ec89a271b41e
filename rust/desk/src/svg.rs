//! The map as a picture.

use combgallop::Verdict;

use crate::found::{Buffer, Found};
use crate::map::{counts, heading};
use crate::words;

/// All lengths are in pixels.
const MARGIN: usize = 16;
const LINE: usize = 22;
/// Where the grid starts: behind the addresses, and below the heading and the chain's line.
const LEFT: usize = MARGIN + 92;
const TOP: usize = MARGIN + 2 * LINE + 12;
const CELL_WIDTH: usize = 66;
const CELL_HEIGHT: usize = 40;
const GAP: usize = 4;
/// So that the longest words of the legend fit.
const LEAST_WIDTH: usize = 1000;

const STYLE: &str = "\
text { font-family: 'DejaVu Sans Mono', monospace; font-size: 13px; fill: #1c2530 }
text.small { font-size: 11px }
text.heading { font-size: 15px; font-weight: bold }
rect.cell { stroke: #5b6b7c; stroke-width: 1 }
.free rect { fill: #d5ecd4 }
.allocated rect { fill: #d3e1f7 }
.cached rect { fill: #c4e9ec }
.fault rect { fill: #b3261e; stroke: #5c0f0a }
.fault text { fill: #ffffff; font-weight: bold }
";

pub fn text(found: &Found) -> String {
    let columns = columns(found.buffers.len());
    let rows = found.buffers.len().div_ceil(columns);
    let legend_top = TOP + rows * CELL_HEIGHT + LINE;
    let counts = counts(found);
    let width = (LEFT + columns * CELL_WIDTH + MARGIN).max(LEAST_WIDTH);
    let height = legend_top + (counts.len() + notes(found).len()) * LINE + MARGIN;
    let mut text = format!(
        "<svg xmlns=\"http://www.w3.org/2000/svg\" width=\"{width}\" height=\"{height}\" \
         viewBox=\"0 0 {width} {height}\">\n<style>\n{STYLE}</style>\n\
         <rect width=\"{width}\" height=\"{height}\" fill=\"#ffffff\"/>\n"
    );
    text += &head(found);
    for (row, buffers) in found.buffers.chunks(columns).enumerate() {
        text += &line(found, buffers, TOP + row * CELL_HEIGHT);
    }
    text += &legend(found, legend_top);
    text + "</svg>\n"
}

/// Few buffers in wide lines would be hard to compare, many in short ones to see at once.
fn columns(count: usize) -> usize {
    if count <= 64 {
        8
    } else {
        16
    }
}

fn head(found: &Found) -> String {
    let chain = format!(
        "{}: {}",
        words::chain_line(found.chain),
        words::chain(found.chain)
    );
    let faults = match found.faults().count() {
        1 => String::from("1 fault"),
        count => format!("{count} faults"),
    };
    let heading = format!("{}: {faults}", heading(found));
    written("heading", MARGIN, MARGIN + LINE - 8, &heading)
        + &written("chain", MARGIN, MARGIN + 2 * LINE - 8, &chain)
}

/// The cells of a line, behind the address of the first.
fn line(found: &Found, buffers: &[Buffer], top: usize) -> String {
    let address = words::address(buffers[0].address);
    let mut text = written("small", MARGIN, top + CELL_HEIGHT / 2 + 2, &address);
    for (column, buffer) in buffers.iter().enumerate() {
        text += &cell(found, buffer, LEFT + column * CELL_WIDTH, top);
    }
    text
}

/// A buffer's index and its place on the chain, and its state below them. A browser shows the
/// title under the pointer.
fn cell(found: &Found, buffer: &Buffer, left: usize, top: usize) -> String {
    let title = title(found, buffer);
    let class = class(buffer.verdict);
    let frame = frame(left, top, CELL_WIDTH - GAP, CELL_HEIGHT - GAP);
    let index = written("small", left + 4, top + 12, &buffer.index.to_string());
    let state = written("state", left + 4, top + 29, &state(buffer.verdict));
    let place = match buffer.place {
        Some(place) => written_before(left + CELL_WIDTH - GAP - 4, top + 12, &format!("@{place}")),
        None => String::new(),
    };
    format!("<g class=\"{class}\"><title>{title}</title>\n{frame}{index}{place}{state}</g>\n")
}

fn title(found: &Found, buffer: &Buffer) -> String {
    let address = words::address(buffer.address);
    let number = match buffer.verdict.fault() {
        Some(fault) => format!("fault {}, ", fault.number()),
        None => String::new(),
    };
    let place = match buffer.place {
        Some(place) => format!("; place {place} on the chain"),
        None => String::new(),
    };
    let words = words::verdict(buffer);
    let latest = words::latest(found, buffer.index);
    let index = buffer.index;
    escaped(&format!(
        "buffer {index} at {address}: {number}{words}{place}; latest {latest}"
    ))
}

/// What stands in a cell.
fn state(verdict: Verdict) -> String {
    match verdict {
        Verdict::Free => String::from("free"),
        Verdict::Whole => String::from("whole"),
        Verdict::Cached => String::from("cached"),
        Verdict::Allocated(size) => format!("a {size}"),
        fault => format!("!{}", fault.number()),
    }
}

fn class(verdict: Verdict) -> &'static str {
    match verdict {
        Verdict::Free => "free",
        Verdict::Whole | Verdict::Allocated(_) => "allocated",
        Verdict::Cached => "cached",
        _ => "fault",
    }
}

/// A cell of each verdict that is met, how often, and its words.
fn legend(found: &Found, top: usize) -> String {
    let mut text = String::new();
    let mut line_top = top;
    for (meaning, sign, count) in counts(found) {
        let example = found.buffers.iter().map(|buffer| buffer.verdict);
        let verdict = example.filter(|verdict| verdict.number() == meaning.number);
        let class = verdict.map(class).next().unwrap_or_default();
        let sign = match meaning.number {
            0 | 1 | 3 => meaning.name,
            2 => "a size",
            _ => &sign,
        };
        let frame = frame(MARGIN, line_top, CELL_WIDTH - GAP, LINE - GAP);
        let sign = written("state", MARGIN + 4, line_top + 13, sign);
        text += &format!("<g class=\"{class}\">{frame}{sign}</g>\n");
        let words = format!("{count:3}  {}", meaning.words);
        text += &written("legend", MARGIN + CELL_WIDTH + 4, line_top + 13, &words);
        line_top += LINE;
    }
    for note in notes(found) {
        text += &written("small", MARGIN, line_top + 13, note);
        line_top += LINE;
    }
    text
}

/// What stands below the legend: every title has a latest transaction.
fn notes(found: &Found) -> Vec<&'static str> {
    let mut notes =
        vec!["@K: the chain's K-th record is the buffer's; in the corner, the buffer's index"];
    if found.now.is_none() {
        notes.push(words::NO_NOW);
    }
    notes
}

fn frame(left: usize, top: usize, width: usize, height: usize) -> String {
    format!(
        "<rect class=\"cell\" x=\"{left}\" y=\"{top}\" width=\"{width}\" height=\"{height}\" \
         rx=\"4\"/>\n"
    )
}

/// A text that starts at a place, of a class of the style.
fn written(class: &str, left: usize, base: usize, text: &str) -> String {
    let text = escaped(text);
    format!(
        "<text class=\"{class}\" x=\"{left}\" y=\"{base}\" xml:space=\"preserve\">{text}</text>\n"
    )
}

/// A small text that ends at a place.
fn written_before(right: usize, base: usize, text: &str) -> String {
    let text = escaped(text);
    format!("<text class=\"small\" text-anchor=\"end\" x=\"{right}\" y=\"{base}\">{text}</text>\n")
}

fn escaped(text: &str) -> String {
    let text = text.replace('&', "&amp;");
    text.replace('<', "&lt;").replace('>', "&gt;")
}

#[cfg(test)]
mod tests {
    use super::escaped;

    /// No text of an image has such signs today; words of the table may.
    #[test]
    fn signs_of_the_language() {
        assert_eq!(escaped("a < b && c > d"), "a &lt; b &amp;&amp; c &gt; d");
    }
}
