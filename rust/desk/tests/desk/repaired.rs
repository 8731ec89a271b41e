//! The bytes that the report shows as expected are the right ones: written over those that it
//! shows as found, they mend what it names, and the second program says so.

use std::fmt::Display;

use differential::PROFILES;
use reference::{inspect, Finding, Verdict};

use crate::cases::draw_crowd;
use crate::counts::{Counts, KERNEL, USERLAND};
use crate::expected::{open, Dump, REDZONE};
use crate::question::ask;

const CASES: u64 = 400;
const SEED: u64 = 0x4c7d_02e9;

/// Where the bytes stand in a line, behind its two spaces, the word and the address.
const BYTES: usize = 2 + 11 + 10 + 2;

/// What a report shows of one buffer's bytes.
struct Shown {
    index: usize,
    address: u32,
    found: Vec<u8>,
    expected: Vec<Option<u8>>,
    /// Which of the bytes is marked.
    mark: Option<usize>,
}

fn bytes(line: &str) -> Vec<Option<u8>> {
    let bytes = line[BYTES..].split(' ');
    let bytes = bytes.map(|byte| match byte {
        ".." => None,
        _ => Some(u8::from_str_radix(byte, 16).expect("two digits")),
    });
    bytes.collect()
}

/// Reads a part of the report, if it shows bytes.
fn shown(part: &str) -> Option<Shown> {
    let title = part.lines().next()?.strip_prefix("buffer ")?;
    let index = title.split(' ').next()?.parse().expect("an index");
    let mut lines = part
        .lines()
        .skip_while(|line| !line.starts_with("  found "));
    let found = lines.next()?;
    let expected = lines.next().expect("a line below");
    assert!(expected.starts_with("  expected "), "{expected}");
    let mark = lines.next().filter(|line| line.trim() == "^^");
    let address = found[13..23].strip_prefix("0x").expect("an address");
    Some(Shown {
        index,
        address: u32::from_str_radix(address, 16).expect("an address"),
        found: bytes(found).into_iter().flatten().collect(),
        expected: bytes(expected),
        mark: mark.map(|line| (line.len() - 2 - BYTES) / 3),
    })
}

/// The verdict on a buffer when the heap is this.
fn verdict(dump: &Dump, heap: &[u8], index: usize) -> Verdict {
    let mut findings = vec![Finding::default(); dump.count()];
    let (sheet, records, magazines) = (&dump.sheet, &dump.records, &dump.magazines);
    let count = inspect(dump.profile, sheet, heap, records, magazines, &mut findings);
    count.expect("the image is not refused");
    findings[index].verdict
}

/// The heap with the expected bytes in their places.
fn repaired(dump: &Dump, shown: &Shown, at: usize) -> Vec<u8> {
    let mut heap = dump.heap.clone();
    for (place, byte) in heap[at..].iter_mut().zip(&shown.expected) {
        *place = byte.unwrap_or(*place);
    }
    heap
}

/// How many buffers have a fault whose bytes are shown.
fn hurt_bytes(dump: &Dump) -> usize {
    let verdicts = dump.verdicts.iter().map(|verdict| verdict.number());
    verdicts
        .filter(|number| matches!(number, 25 | 26 | 28 | 30))
        .count()
}

/// What is shown is what stands there, and the mark is below the first hurt byte.
fn assert_found(dump: &Dump, shown: &Shown, story: &dyn Display) -> usize {
    let at = (shown.address - dump.numbers.heap_base) as usize;
    let length = shown.found.len();
    assert_eq!(shown.found, dump.heap[at..at + length], "{story}");
    assert_eq!(shown.expected.len(), length, "{story}");
    let start = at - shown.index * dump.numbers.chunk_size as usize;
    match dump.verdicts[shown.index] {
        Verdict::BadHeader => assert_eq!((start, length, shown.mark), (0, 8, None), "{story}"),
        fault => {
            let place = fault.value() as usize - start;
            assert_eq!((length, shown.mark), (16, Some(place)), "{story}");
            let wanted = shown.expected[place].expect("the hurt byte is judged");
            assert_ne!(shown.found[place], wanted, "{story}");
        }
    }
    start
}

/// The same fault is not found again inside what was shown. A header of a coded size below 9
/// cannot be mended (V30), and that of one below 8 is written over its guard.
fn assert_mended(dump: &Dump, shown: &Shown, start: usize, heap: &[u8], story: &dyn Display) {
    let before = dump.verdicts[shown.index];
    let after = verdict(dump, heap, shown.index);
    let end = start + shown.found.len();
    if before == Verdict::BadHeader {
        let wanted = match dump.r1(shown.index) / 251 {
            0..=7 => 28,
            8 => 30,
            _ => 2,
        };
        assert_eq!(after.number(), wanted, "{story}");
    } else if after.number() == before.number() {
        let offset = after.value() as usize;
        assert!(offset >= end, "still hurt at {offset}: {story}");
    }
}

/// In a chunk that is mended every byte that is expected matters, and none that may be any.
fn assert_each_byte(dump: &Dump, shown: &Shown, at: usize, heap: &[u8], story: &dyn Display) {
    let mended = verdict(dump, heap, shown.index);
    for (place, expected) in shown.expected.iter().enumerate() {
        let mut changed = heap.to_vec();
        changed[at + place] ^= 0x11;
        let found = verdict(dump, &changed, shown.index);
        let is_judged = found != mended;
        assert_eq!(is_judged, expected.is_some(), "byte {place}: {story}");
    }
}

fn note(counts: &mut Counts, dump: &Dump, shown: &Shown, is_mended: bool) {
    let place = dump.place_name();
    let number = dump.verdicts[shown.index].number();
    counts.note(&place, format!("verdict {number}"));
    if is_mended {
        counts.note(&place, format!("verdict {number} mended"));
    }
    if number == 28 {
        let grant = match dump.r1(shown.index) {
            REDZONE => "whole",
            _ => "sized",
        };
        counts.note(&place, format!("verdict 28 of a {grant} grant"));
    }
}

#[test]
fn crowds_of_hurts() {
    let mut counts = Counts::default();
    for profile in PROFILES {
        for number in 0..CASES {
            let mut drawn = draw_crowd(profile, SEED, number);
            let question = drawn.question.clone();
            let dump = open(&question).expect("a crowd is not refused");
            let ran = ask(&question, &["report"], "repaired", &mut drawn.sequence);
            let text = ran.stdout_text();
            let parts: Vec<Shown> = text.split("\n\n").filter_map(shown).collect();
            assert_eq!(parts.len(), hurt_bytes(&dump), "{drawn}");
            for shown in parts {
                let start = assert_found(&dump, &shown, &drawn);
                let at = (shown.address - dump.numbers.heap_base) as usize;
                let heap = repaired(&dump, &shown, at);
                assert_mended(&dump, &shown, start, &heap, &drawn);
                let is_mended = verdict(&dump, &heap, shown.index).number() < 20;
                if is_mended {
                    assert_each_byte(&dump, &shown, at, &heap, &drawn);
                }
                note(&mut counts, &dump, &shown, is_mended);
            }
        }
    }
    counts.print("desk, expected bytes, crowds of hurts", SEED);
    want(&counts);
}

fn want(counts: &Counts) {
    for places in [KERNEL, USERLAND] {
        for number in [25, 26, 28] {
            let met = [
                format!("verdict {number}"),
                format!("verdict {number} mended"),
            ];
            counts.want(&places, &met);
        }
        let grants = ["verdict 28 of a whole grant", "verdict 28 of a sized grant"];
        counts.want(&places, &grants);
    }
    counts.want(&USERLAND, &["verdict 30", "verdict 30 mended"]);
}
