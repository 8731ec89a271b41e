//! Inspect: the same answer and the same rows, with magazine lists of every kind.

use std::fmt::Display;

use differential::hurt::HURTS;
use differential::magazines::{cache, cache_some, names};
use differential::neighbours::{each_cached_neighbour, each_neighbour, each_small_size_code};
use differential::{sound_image, Case, Image, Sequence, KERNEL_FORMS};
use reference::{Finding, Profile, Refusal};
use timed::plain_inspect;

use crate::counts::{hurt, refusals, verdict, Counts, VERDICTS};
use crate::lengths::each_length;
use crate::lent::{expected_answer, Areas};

const SEED: u64 = 0x2c6e_91d3;

/// The refusals that inspect can give, by the rules.
const REFUSALS: [(u8, u8); 5] = [(1, 0), (2, 0), (3, 0), (4, 0), (11, 0)];

/// What stands in the lent numbers, and before and after them.
const UNTOUCHED: u32 = 0xa5a5_c3c3;

/// How many numbers before and after the lent ones must stay.
const AROUND: usize = 5;

/// Inspects an image with room for so many numbers, by both, and answers what the
/// reference finds.
fn compare(
    image: &Image,
    room: usize,
    sequence: &mut Sequence,
    story: &dyn Display,
) -> Result<Vec<Finding>, Refusal> {
    let mut findings = vec![Finding::default(); room / 3];
    let (sheet, heap, records) = (&image.sheet, &image.heap, &image.records);
    let (profile, list) = (Profile::Kernel, &image.magazines);
    let expected = reference::inspect(profile, sheet, heap, records, list, &mut findings);
    findings.truncate(expected.unwrap_or(0));
    let mut expected_rows = vec![UNTOUCHED; room + 2 * AROUND];
    for (row, finding) in expected_rows[AROUND..].chunks_exact_mut(3).zip(&findings) {
        let Finding { index, verdict } = *finding;
        row.copy_from_slice(&[index, verdict.number(), verdict.value()]);
    }

    let lent = Areas::new(image, sequence);
    let (sheet, heap, records) = (lent.sheet.part(), lent.heap.part(), lent.records.part());
    let mut rows = vec![UNTOUCHED; room + 2 * AROUND];
    let part = &mut rows[AROUND..AROUND + room];
    let answer = plain_inspect(sheet, heap, records, lent.magazines.part(), part);
    let expected_answer = expected_answer(expected.map(|count| count as u32));
    assert_eq!(answer, expected_answer, "room {room}, {story}");
    assert_eq!(rows, expected_rows, "room {room}, {story}");
    lent.assert_hold(image, story);
    expected.map(|_| findings)
}

#[test]
fn hurt_images() {
    let mut counts = Counts::default();
    for number in 0..60_000 {
        let (case, mut sequence) = Case::listed(Profile::Kernel, SEED, number);
        let room = sequence.room(3 * case.image.shape.count);
        let found = compare(&case.image, room, &mut sequence, &case);
        counts.note_found(case.image.form, &found);
        counts.note(case.image.form, case.list.to_string());
        for name in case.hurts {
            counts.note(case.image.form, hurt(name));
        }
    }
    let hurts = HURTS.iter().map(|(name, _)| hurt(name));
    let wanted = VERDICTS.map(verdict).into_iter().chain(hurts);
    let wanted = wanted.chain(refusals("inspect", &REFUSALS));
    let wanted = wanted.chain(names().map(String::from));
    counts.finish("inspect, hurt images", SEED, wanted);
}

#[test]
fn sound_images() {
    let mut counts = Counts::default();
    let mut sequence = Sequence::new(SEED);
    for number in 0..4_000 {
        let mut image = sound_image(Profile::Kernel, &mut sequence);
        if number % 2 == 1 {
            cache_some(&mut image, &mut sequence);
        }
        let room = 3 * image.shape.count;
        let found = compare(&image, room, &mut sequence, &image);
        assert!(found.is_ok(), "a sound image is not refused: {image}");
        counts.note_found(image.form, &found);
    }
    counts.finish("inspect, sound images", SEED, [0, 1, 2, 3].map(verdict));
}

#[test]
fn neighbours_of_the_dump() {
    let mut counts = Counts::default();
    let mut sequence = Sequence::new(SEED);
    let mut see = |image: &Image| {
        let found = compare(image, 10, &mut sequence, image);
        counts.note_found(image.form, &found);
    };
    each_neighbour(&KERNEL_FORMS, &mut see);
    each_cached_neighbour(&KERNEL_FORMS, &mut see);
    // A chain comes back, and a size code is 1, only when more than one byte is written.
    let verdicts = VERDICTS.iter().filter(|number| ![22, 31].contains(*number));
    let wanted = verdicts.map(|number| verdict(*number));
    let wanted = wanted.chain(refusals("inspect", &[(1, 0), (2, 0), (3, 0), (4, 0)]));
    counts.finish("inspect, neighbours of the dump", SEED, wanted);
}

#[test]
fn every_length() {
    let mut counts = Counts::default();
    let mut sequence = Sequence::new(SEED);
    each_length(|image| {
        for image in each_list(image) {
            for room in [0, 1, 8, 9, 10] {
                let found = compare(&image, room, &mut sequence, &image);
                counts.note_found(image.form, &found);
            }
        }
    });
    let wanted = [0, 2, 3, 22].map(verdict).into_iter();
    let wanted = wanted.chain(refusals("inspect", &[(1, 0), (3, 0), (4, 0), (11, 0)]));
    counts.finish("inspect, every length", SEED, wanted);
}

/// The dump as it is, with its last buffer in a magazine, and then with lists of up to four
/// words, alone and with one that is no buffer's start.
fn each_list(image: &Image) -> Vec<Image> {
    let mut cached = image.clone();
    cache(&mut cached, &[0]);
    let start = cached.shape.buffer_address(2);
    let mut images = vec![image.clone()];
    for length in 1..=4 {
        for word in [start, start + 1] {
            let mut listed = cached.clone();
            listed.magazines = vec![start; length];
            listed.magazines[length / 2] = word;
            images.push(listed);
        }
    }
    images
}

#[test]
fn every_small_size_code() {
    let mut counts = Counts::default();
    let mut sequence = Sequence::new(SEED);
    each_small_size_code(&KERNEL_FORMS, |image| {
        let found = compare(image, 9, &mut sequence, image);
        counts.note_found(image.form, &found);
    });
    let wanted = [2, 27, 28, 31, 32].map(verdict);
    counts.finish("inspect, every small size code", SEED, wanted);
}
