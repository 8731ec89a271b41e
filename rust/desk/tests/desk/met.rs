//! What of `docs/DESK.md` a question meets: verdicts, refusals, endings, and each kind of line
//! that the report can have.

use reference::{Ending, Profile, Refusal, Verdict};

use crate::counts::{profile_name, Counts, KERNEL, PROFILES, USERLAND};
use crate::expected::{report_text, Dump, Place, Transaction, NO_NOW, REDZONE};
use crate::question::Question;
use crate::table;

/// The refusals that reading an image can give (E3).
const REFUSALS: [u8; 4] = [1, 2, 3, 4];

/// The verdict that userland alone has.
const HEADER_VERDICT: u32 = 30;

/// All that can be met under both profiles and in both orders, beside the verdicts.
const WANTED: [&str; 30] = [
    "chain end",
    "chain broken",
    "chain again",
    "latest a record",
    "latest a row",
    "latest refused 7",
    "latest refused 12",
    "latest of thread 0",
    "kind 1",
    "kind 2",
    "kind other",
    "fault of buffer 0",
    "fault of another buffer",
    "guard hurt before the buffer's end",
    "guard hurt at the buffer's end",
    "R0 hurt, whole",
    "R0 hurt, sized",
    "line records, none",
    "line records, some",
    "line tag",
    "line chain, not met",
    "line chain, place",
    "line magazines, 0 times",
    "line magazines, 1 time",
    "line magazines, more times",
    "line size code",
    "line no --now",
    "list given",
    "list not given",
    "now given",
];

pub fn note_refusal(counts: &mut Counts, profile: Profile, refusal: Refusal) {
    let place = profile_name(profile);
    counts.note(place, format!("refusal {}", refusal.number));
}

pub fn note_dump(counts: &mut Counts, question: &Question, dump: &Dump) {
    let place = dump.place_name();
    counts.note(&place, format!("status {}", dump.status()));
    counts.note(
        &place,
        match dump.chain.ending {
            Ending::End => "chain end",
            Ending::Broken => "chain broken",
            Ending::Again(_) => "chain again",
        },
    );
    note_given(counts, &place, question);
    for index in 0..dump.count() {
        note_buffer(counts, &place, dump, index);
    }
    for line in report_text(dump).lines() {
        note_line(counts, &place, line);
    }
}

fn note_given(counts: &mut Counts, place: &str, question: &Question) {
    let list = match question.magazines {
        Some(_) => "list given",
        None => "list not given",
    };
    counts.note(place, list);
    let now = match question.now {
        Some(_) => "now given",
        None => "now not given",
    };
    counts.note(place, now);
}

fn note_buffer(counts: &mut Counts, place: &str, dump: &Dump, index: usize) {
    let verdict = dump.verdicts[index];
    let number = verdict.number();
    counts.note(place, format!("verdict {number}"));
    if number >= 20 {
        let which = match index {
            0 => "fault of buffer 0",
            _ => "fault of another buffer",
        };
        counts.note(place, which);
        note_latest(counts, place, &dump.latest(index));
    }
    if let Verdict::GuardDiffers(offset) = verdict {
        counts.note(place, overrun_kind(dump, index, offset));
    }
}

/// Where an overrun is found (J4, J5).
fn overrun_kind(dump: &Dump, index: usize, offset: u32) -> &'static str {
    let size = dump.numbers.buffer_size;
    let coded = dump.r1(index) / 251;
    match dump.r1(index) {
        REDZONE => "R0 hurt, whole",
        _ if offset != coded => "R0 hurt, sized",
        _ if coded == size => "guard hurt at the buffer's end",
        _ if coded < 8 && dump.profile == Profile::Userland => "guard hurt in the header",
        _ => "guard hurt before the buffer's end",
    }
}

/// The latest transaction of a buffer with a fault, as the report tells it.
fn note_latest(counts: &mut Counts, place: &str, latest: &Result<Transaction, Refusal>) {
    let found = match latest {
        Ok(found) => found,
        Err(refusal) => {
            counts.note(place, format!("latest refused {}", refusal.number));
            return;
        }
    };
    if found.thread == 0 {
        counts.note(place, "latest of thread 0");
    }
    match found.place {
        Place::Record(_) => counts.note(place, "latest a record"),
        Place::Row(_, kind) => {
            counts.note(place, "latest a row");
            let kind = match kind {
                1 => "kind 1",
                2 => "kind 2",
                _ => "kind other",
            };
            counts.note(place, kind);
        }
    }
}

/// The lines of a part of which there are several kinds, by how they start.
fn note_line(counts: &mut Counts, place: &str, line: &str) {
    let kinds = [
        ("  records    none", "line records, none"),
        ("  records    ", "line records, some"),
        ("  tag        ", "line tag"),
        ("  chain      not met", "line chain, not met"),
        ("  chain      place", "line chain, place"),
        ("  magazines  listed 0 times", "line magazines, 0 times"),
        ("  magazines  listed 1 time", "line magazines, 1 time"),
        ("  magazines  listed", "line magazines, more times"),
        ("  size code  ", "line size code"),
        (NO_NOW, "line no --now"),
    ];
    let mut kinds = kinds.into_iter();
    if let Some((_, kind)) = kinds.find(|(start, _)| line.starts_with(start)) {
        counts.note(place, kind);
    }
}

/// Fails where something that can be met was not.
pub fn want_all(counts: &Counts) {
    let verdicts = table::verdicts().iter().map(|row| row.number);
    let (header, others): (Vec<u32>, Vec<u32>) =
        verdicts.partition(|number| *number == HEADER_VERDICT);
    let named = |numbers: Vec<u32>| {
        numbers
            .into_iter()
            .map(|number| format!("verdict {number}"))
    };
    let others: Vec<String> = named(others).collect();
    let header: Vec<String> = named(header).collect();
    let refusals = REFUSALS.map(|number| format!("refusal {number}"));
    let statuses = ["status 0", "status 1"];
    for places in [KERNEL, USERLAND] {
        counts.want(&places, &others);
        counts.want(&places, &WANTED);
        counts.want(&places, &statuses);
    }
    counts.want(&USERLAND, &header);
    counts.want(&USERLAND, &["guard hurt in the header"]);
    counts.want(&PROFILES, &refusals);
}
