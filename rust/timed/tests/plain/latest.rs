//! The latest transaction: the same answer.

use std::fmt::Display;

use differential::latest::{choices_met, each_order_of_uptimes, some_index, some_now, CHOICES};
use differential::neighbours::each_neighbour;
use differential::{Case, Image, Sequence, KERNEL_FORMS};
use reference::{Latest, Profile, Refusal};
use timed::plain_latest;

use crate::counts::{refusals, Counts};
use crate::lengths::each_length;
use crate::lent::{expected_answer, Areas};

const SEED: u64 = 0x63d8_0b7f;

/// The refusals that latest can give, by the rules.
const REFUSALS: [(u8, u8); 6] = [(1, 0), (2, 0), (3, 0), (4, 0), (7, 20), (12, 0)];

/// Added to a record's index, to set it apart from a row.
const RECORD_MARK: u32 = 0x8000_0000;

/// Asks both for the latest transaction, and answers what the reference says.
fn compare(
    image: &Image,
    index: u32,
    now: u32,
    sequence: &mut Sequence,
    story: &dyn Display,
) -> Result<Latest, Refusal> {
    let (sheet, heap, records) = (&image.sheet, &image.heap, &image.records);
    let (profile, log) = (Profile::Kernel, &image.log);
    let expected = reference::latest(profile, sheet, heap, records, log, index, now);
    let value = expected.map(|found| match found {
        Latest::Row(row) => row as u32,
        Latest::Record(record) => RECORD_MARK + record as u32,
    });

    let lent = Areas::new(image, sequence);
    let (sheet, heap, records) = (lent.sheet.part(), lent.heap.part(), lent.records.part());
    let answer = plain_latest(sheet, heap, records, lent.log.part(), index, now);
    let expected_answer = expected_answer(value);
    assert_eq!(answer, expected_answer, "index {index}, now {now}, {story}");
    lent.assert_hold(image, story);
    expected
}

fn note(counts: &mut Counts, image: &Image, found: Result<Latest, Refusal>) {
    match found {
        Ok(found) => {
            for choice in choices_met(image, found) {
                counts.note(image.form, choice.to_string());
            }
        }
        Err(refused) => counts.note_refusal(image.form, "latest", refused),
    }
}

fn choices() -> impl Iterator<Item = String> {
    CHOICES.into_iter().map(String::from)
}

#[test]
fn hurt_images() {
    let mut counts = Counts::default();
    for number in 0..60_000 {
        let (case, mut sequence) = Case::new(Profile::Kernel, SEED, number);
        for _ in 0..3 {
            let index = some_index(&case.image, &mut sequence);
            let now = some_now(&case.image, &mut sequence);
            let found = compare(&case.image, index, now, &mut sequence, &case);
            note(&mut counts, &case.image, found);
        }
    }
    let wanted = choices().chain(refusals("latest", &REFUSALS));
    counts.finish("latest, hurt images", SEED, wanted);
}

#[test]
fn every_order_of_uptimes() {
    let mut sequence = Sequence::new(SEED);
    let mut counts = Counts::default();
    each_order_of_uptimes(&KERNEL_FORMS, |image, now| {
        let found = compare(image, 1, now, &mut sequence, image);
        note(&mut counts, image, found);
    });
    counts.finish("latest, every order of uptimes", SEED, choices());
}

#[test]
fn neighbours_of_the_dump() {
    let mut counts = Counts::default();
    let mut sequence = Sequence::new(SEED);
    each_neighbour(&KERNEL_FORMS, |image| {
        for index in 0..3 {
            let found = compare(image, index, 7, &mut sequence, image);
            note(&mut counts, image, found);
        }
    });
    // With another count the areas have wrong lengths, so no index is too high.
    let wanted = refusals("latest", &[(1, 0), (2, 0), (3, 0), (7, 20), (12, 0)]);
    counts.finish("latest, neighbours of the dump", SEED, wanted);
}

#[test]
fn every_length() {
    let mut counts = Counts::default();
    let mut sequence = Sequence::new(SEED);
    each_length(|image| {
        for log_length in [0, 1, 15, 16, 17, 16_368, 16_383, 16_384, 16_385, 16_400] {
            let mut image = image.clone();
            image.log = vec![0; log_length];
            for index in [1, 3] {
                let found = compare(&image, index, 7, &mut sequence, &image);
                note(&mut counts, &image, found);
            }
        }
    });
    let wanted = refusals("latest", &[(1, 0), (3, 0), (4, 0)]);
    counts.finish("latest, every length", SEED, wanted);
}
