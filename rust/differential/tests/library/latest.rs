//! The latest transaction, on hurt images and for every order of a few uptimes.

use std::fmt::Display;

use combgallop::{latest, latest_answer};
use differential::latest::{choices_met, each_order_of_uptimes, some_index, some_now};
use differential::{Case, Image, Sequence, FORMS, PROFILES};
use reference::{Latest, Refusal};

use crate::counts::{Counts, Met};
use crate::expected::{expected_answer, expected_profile, expected_refusal};
use crate::lent::Lent;

const CASES: u64 = 60_000;
const SEED: u64 = 0x7a3e_55c9;

/// All that latest can give, by the rules, and the ways to err that they name.
const WANTED: [Met; 11] = [
    Met::Latest("row"),
    Met::Latest("record"),
    Met::Latest("tie of rows"),
    Met::Latest("tie of row and record"),
    Met::Latest("greater stamp that is older"),
    Met::Refusal(1, 0),
    Met::Refusal(2, 0),
    Met::Refusal(3, 0),
    Met::Refusal(4, 0),
    Met::Refusal(7, 20),
    Met::Refusal(12, 0),
];

/// Asks both for the latest transaction, and answers what the reference says.
pub fn compare(
    image: &Image,
    index: u32,
    now: u32,
    sequence: &mut Sequence,
    story: &dyn Display,
) -> Result<Latest, Refusal> {
    let (sheet, heap, records) = (&image.sheet, &image.heap, &image.records);
    let profile = image.profile();
    let expected = reference::latest(profile, sheet, heap, records, &image.log, index, now);
    let expected_value = expected.map(|found| match found {
        Latest::Row(row) => row as u32,
        Latest::Record(record) => 0x8000_0000 + record as u32,
    });
    let expected_found = expected.map_err(expected_refusal).map(|found| match found {
        Latest::Row(row) => combgallop::Latest::Row(row),
        Latest::Record(record) => combgallop::Latest::Record(record),
    });

    let lent = Lent::new(image, sequence);
    let (sheet, heap, records) = (lent.sheet.part(), lent.heap.part(), lent.records.part());
    let (profile, log) = (expected_profile(profile), lent.log.part());
    let answer = latest_answer(profile, sheet, heap, records, log, index, now);
    let expected_answer = expected_answer(expected_value);
    assert_eq!(answer, expected_answer, "index {index}, now {now}, {story}");
    lent.assert_holds(image, story);

    let found = latest(profile, sheet, heap, records, log, index, now);
    assert_eq!(found, expected_found, "index {index}, now {now}, {story}");
    lent.assert_holds(image, story);
    expected
}

pub fn note(counts: &mut Counts, image: &Image, found: Result<Latest, Refusal>) {
    let form = image.read_form();
    match found {
        Ok(found) => {
            for choice in choices_met(image, found) {
                counts.note(form, Met::Latest(choice));
            }
        }
        Err(refusal) => counts.note_refusal(form, refusal),
    }
}

#[test]
fn hurt_images() {
    let mut counts = Counts::default();
    for profile in PROFILES {
        for number in 0..CASES {
            let (case, mut sequence) = Case::new(profile, SEED, number);
            for _ in 0..3 {
                let index = some_index(&case.image, &mut sequence);
                let now = some_now(&case.image, &mut sequence);
                let found = compare(&case.image, index, now, &mut sequence, &case);
                note(&mut counts, &case.image, found);
            }
        }
    }
    counts.finish("latest, hurt images", SEED, &WANTED);
}

#[test]
fn every_order_of_uptimes() {
    let mut sequence = Sequence::new(SEED);
    let mut counts = Counts::default();
    each_order_of_uptimes(&FORMS, |image, now| {
        let found = compare(image, 1, now, &mut sequence, image);
        note(&mut counts, image, found);
    });
    counts.finish("latest, every order of uptimes", SEED, &WANTED[..5]);
}
