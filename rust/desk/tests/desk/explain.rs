//! `explain`: every number, by the tables of the README. That of no verdict and no refusal is
//! with the wrong command lines.

use crate::bad_input::assert_wrong;
use crate::run::run;
use crate::table::{refusals, verdicts, RefusalRow, VerdictRow};

/// A verdict, and behind it what the table has beside its words.
fn verdict_text(row: &VerdictRow) -> String {
    let mut text = format!("verdict {}, {}: {}\n", row.number, row.name, row.words);
    if !row.with.is_empty() {
        text += &format!("  with {}\n", row.with);
    }
    if !row.look.is_empty() {
        text += &format!("  look first at {}\n", row.look);
    }
    text
}

fn refusal_text(row: &RefusalRow) -> String {
    let which = match row.detail {
        0 => format!("refusal {}", row.number),
        detail => format!("refusal {} with detail {detail}", row.number),
    };
    format!("{which}, {}: {}\n", row.name, row.words)
}

/// The number that a refusal is explained by: its detail, where it has a name of its own.
fn explained_by(row: &RefusalRow) -> u32 {
    match row.detail {
        0 => row.number,
        detail => detail,
    }
}

/// A number that is both is the verdict's first.
fn expected(number: u32) -> String {
    let verdicts = verdicts().iter().filter(|row| row.number == number);
    let refusals = refusals().iter().filter(|row| explained_by(row) == number);
    let texts = verdicts.map(verdict_text);
    texts.chain(refusals.map(refusal_text)).collect()
}

#[test]
fn every_number() {
    let mut explained = 0;
    for number in 0..=255 {
        let text = expected(number);
        let ran = run(&["explain", &number.to_string()]);
        if text.is_empty() {
            assert_wrong(&ran, &format!("explain {number}"));
            continue;
        }
        explained += 1;
        assert_eq!(ran.stdout_text(), text, "explain {number}");
        assert_eq!(ran.stderr_text(), "", "explain {number}");
        assert_eq!(ran.status, Some(0), "explain {number}");
    }
    // 16 verdicts, of which 1, 2 and 3 are refusals too, and 4 to 13 and 29, which are only that.
    assert_eq!(explained, 16 + 10 + 1);
}

/// A few of them in full, as a reader of the README would write them.
#[test]
fn some_numbers() {
    let free = "verdict 0, free: free\n";
    let whole = "verdict 1, whole: allocated whole\n\
        refusal 1, bad_sheet: the sheet is neither 48 nor 52 bytes of the stated tags and lengths; \
        for lay out, not 52 bytes long\n";
    let room = "refusal 5, no_room: no buffer is left on the chain\n";
    let overrun = "verdict 28, overrun: written to past the end of what was granted\n\
        \x20 with the offset of the first hurt byte\n\
        \x20 look first at the task that holds it\n";
    let head =
        "refusal 7 with detail 29, broken_head: damage was met: the chain starts at no record\n";
    for (number, text) in [
        ("0", free),
        ("1", whole),
        ("5", room),
        ("28", overrun),
        ("29", head),
    ] {
        assert_eq!(run(&["explain", number]).stdout_text(), text);
    }
}
