//! The report, on hurt images with magazine lists and with every room for it.

use std::fmt::Display;

use combgallop::{report, report_answer};
use differential::samples::dump;
use differential::{Case, Image, Sequence, FORMS, PROFILES};
use reference::{chain, Refusal};

use crate::counts::{Counts, Met, ENDINGS, HEADER_VERDICT, READ_REFUSALS, VERDICTS};
use crate::expected::{expected_answer, expected_profile, expected_refusal};
use crate::lent::{Guarded, Lent};
use crate::listed;

const CASES: u64 = 60_000;
const SEED: u64 = 0x3c84_a90d;

/// Asks both for the report with so many bytes of room, and answers the reference's
/// text.
pub fn compare(
    image: &Image,
    room: usize,
    sequence: &mut Sequence,
    story: &dyn Display,
) -> Result<String, Refusal> {
    let pattern: Vec<u8> = (0..room).map(|at| at as u8 | 0x80).collect();
    let mut expected_output = pattern.clone();
    let expected = by_reference(image, &mut expected_output);

    let lent = Lent::new(image, sequence);
    let (sheet, heap, records) = (lent.sheet.part(), lent.heap.part(), lent.records.part());
    let (list, log) = (lent.magazines.part(), lent.log.part());
    let profile = expected_profile(image.profile());
    let mut output = Guarded::new(&pattern, sequence);
    let answer = report_answer(profile, sheet, heap, records, list, log, output.part_mut());
    let length = expected.map(|length| length as u32);
    assert_eq!(answer, expected_answer(length), "room {room}, {story}");
    assert!(output.holds(&expected_output), "output, {room}, {story}");
    lent.assert_holds(image, story);

    let mut output = Guarded::new(&pattern, sequence);
    let answer = report(profile, sheet, heap, records, list, log, output.part_mut());
    assert_eq!(answer, expected.map_err(expected_refusal), "{story}");
    assert!(output.holds(&expected_output), "output, {room}, {story}");
    lent.assert_holds(image, story);
    let text = String::from_utf8_lossy(&expected_output[..expected.unwrap_or(0)]).into_owned();
    expected.map(|_| text)
}

/// Writes the report with the image's magazine list, if there is room.
fn by_reference(image: &Image, output: &mut [u8]) -> Result<usize, Refusal> {
    let (sheet, heap, records) = (&image.sheet, &image.heap, &image.records);
    let (list, log) = (&image.magazines, &image.log);
    reference::report(image.profile(), sheet, heap, records, list, log, output)
}

/// The report's text, without a limit to it.
pub fn text_by_reference(image: &Image) -> Result<String, Refusal> {
    let (sheet, heap, records) = (&image.sheet, &image.heap, &image.records);
    let (list, log) = (&image.magazines, &image.log);
    reference::report_text(image.profile(), sheet, heap, records, list, log)
}

/// The exact need, more, one byte less, or anything less.
fn some_room(image: &Image, sequence: &mut Sequence) -> usize {
    let exact = text_by_reference(image).map_or(64, |text| text.len());
    match sequence.below(12) {
        0 => sequence.below(exact),
        1 => exact - 1,
        2..=5 => exact,
        6 => 16_384,
        _ => exact + sequence.between(1, 40),
    }
}

/// The verdict that a buffer's line tells, none for the report's other lines.
fn told_verdict(line: &str) -> Option<u32> {
    match *line.split(' ').collect::<Vec<_>>() {
        [_, "free"] => Some(0),
        [_, "whole"] => Some(1),
        [_, "allocated", _] => Some(2),
        [_, "cached"] => Some(3),
        [_, "fault", number] | [_, "fault", number, _] => number.parse().ok(),
        _ => None,
    }
}

pub fn note(counts: &mut Counts, image: &Image, found: Result<String, Refusal>) {
    let form = image.read_form();
    let text = match found {
        Ok(text) => text,
        Err(refusal) => return counts.note_refusal(form, refusal),
    };
    for verdict in text.lines().filter_map(told_verdict) {
        counts.note(form, Met::Verdict(verdict));
    }
    let walked = chain(image.profile(), &image.sheet, &image.heap, &image.records);
    let ending = walked.expect("an image reported has a chain").ending;
    counts.note(form, Met::chain(ending));
}

#[test]
fn hurt_images() {
    let mut counts = Counts::default();
    for profile in PROFILES {
        for number in 0..CASES {
            let (case, mut sequence) = Case::listed(profile, SEED, number);
            let room = some_room(&case.image, &mut sequence);
            let found = compare(&case.image, room, &mut sequence, &case);
            note_list(&mut counts, &case.image, room, &found);
            note(&mut counts, &case.image, found);
            counts.note(case.image.form, Met::List(case.list));
        }
    }
    let lists = [&listed::wanted()[..], &listed::CAUSES, &listed::LOG_CAUSES].concat();
    let wanted = [&VERDICTS[..], &ENDINGS, &READ_REFUSALS, &lists].concat();
    counts.finish_with("report, hurt images", SEED, &wanted, &[HEADER_VERDICT]);
}

/// Notes what the magazine list came to. The room is surely too short where the first line
/// does not fit.
fn note_list(counts: &mut Counts, image: &Image, room: usize, found: &Result<String, Refusal>) {
    match found {
        Ok(text) => {
            let verdicts = text.lines().filter_map(told_verdict);
            listed::note_buffers(counts, image, verdicts);
        }
        Err(refusal) => {
            let is_short = room < "heap report 1\n".len();
            listed::note_refusal(counts, image, *refusal, &image.log, is_short);
        }
    }
}

/// Every room from none to more than enough, for the dump.
#[test]
fn every_room() {
    let mut sequence = Sequence::new(SEED);
    let mut counts = Counts::default();
    for image in FORMS.map(dump) {
        for room in 0..200 {
            let found = compare(&image, room, &mut sequence, &image);
            assert_eq!(found.is_ok(), room >= 64, "room {room}");
            note(&mut counts, &image, found);
        }
    }
    counts.finish("report, every room", SEED, &[Met::Refusal(11, 0)]);
}
