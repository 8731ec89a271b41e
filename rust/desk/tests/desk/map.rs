//! `map`, byte for byte, as it is where standard output is no terminal.

use differential::PROFILES;

use crate::cases::draw;
use crate::counts::{Counts, KERNEL, PROFILES as PROFILE_NAMES, USERLAND};
use crate::expected::{cell, map_text, open, Dump};
use crate::met::{note_dump, note_refusal};
use crate::question::ask;
use crate::report::compare;
use crate::table;

const CASES: u64 = 800;
const SEED: u64 = 0x37c4_1e0b;

/// The signs of cells that can stand alone or before a place on the chain. A free buffer that
/// is no fault is on the chain, and one that is allocated or cached is not.
const WITHOUT_PLACE: [&str; 4] = ["w", "a", "c", "!"];
const WITH_PLACE: [&str; 2] = ["f", "!"];

/// Cells by their sign, without the number of a fault, and by whether they have a place.
fn note_cells(counts: &mut Counts, dump: &Dump) {
    let place = dump.place_name();
    for index in 0..dump.count() {
        let cell = cell(dump, index);
        let met = if cell.contains('@') {
            "with place"
        } else {
            "without place"
        };
        counts.note(&place, format!("cell {:.1} {met}", cell));
        if dump.namers(index).len() > 1 && cell.contains('@') {
            counts.note(&place, "place by one of several records");
        }
    }
    let lines = match dump.count() {
        1 => "1 buffer",
        2..=8 => "one line",
        _ => "several lines",
    };
    counts.note(&place, lines);
}

fn want(counts: &Counts) {
    let verdicts = table::verdicts().iter().filter(|row| row.number != 30);
    let verdicts: Vec<String> = verdicts
        .map(|row| format!("verdict {}", row.number))
        .collect();
    let others = [
        "1 buffer",
        "one line",
        "several lines",
        "place by one of several records",
    ];
    for places in [KERNEL, USERLAND] {
        counts.want(&places, &verdicts);
        counts.want(
            &places,
            &WITHOUT_PLACE.map(|sign| format!("cell {sign} without place")),
        );
        counts.want(
            &places,
            &WITH_PLACE.map(|sign| format!("cell {sign} with place")),
        );
        counts.want(&places, &others);
        counts.want(&places, &["chain end", "chain broken", "chain again"]);
    }
    counts.want(&USERLAND, &["verdict 30"]);
    let refusals = [1, 2, 3, 4].map(|number| format!("refusal {number}"));
    counts.want(&PROFILE_NAMES, &refusals);
}

#[test]
fn hurt_images() {
    let mut counts = Counts::default();
    for profile in PROFILES {
        for number in 0..CASES {
            let mut drawn = draw(profile, SEED, number);
            let question = drawn.question.clone();
            let ran = ask(&question, &["map"], "map", &mut drawn.sequence);
            compare(&question, &ran, map_text, &drawn);
            match open(&question) {
                Ok(dump) => {
                    note_dump(&mut counts, &question, &dump);
                    note_cells(&mut counts, &dump);
                }
                Err(refusal) => note_refusal(&mut counts, profile, refusal),
            }
        }
    }
    counts.print("desk, map, hurt images", SEED);
    want(&counts);
}
