//! Inspect, on hurt images with magazine lists, on every neighbour of the dump, and with every
//! byte of a free chunk hurt.

use std::fmt::Display;

use combgallop::{inspect, inspect_answer};
use differential::hurt::HURTS;
use differential::magazines::{cache, cache_some};
use differential::neighbours::{each_cached_neighbour, each_neighbour, each_small_size_code};
use differential::{sound_image, Case, Image, Sequence, Shape, FORMS, PROFILES};
use reference::{chain, Finding, Refusal, Verdict};

use crate::counts::{Counts, Met, ENDINGS, EXTREMES, HEADER_VERDICT, READ_REFUSALS, VERDICTS};
use crate::expected::{
    expected_answer, expected_finding, expected_profile, expected_refusal, put_rows,
};
use crate::lent::{numbered, Guarded, Lent};
use crate::listed;

const CASES: u64 = 60_000;
const SEED: u64 = 0x1d5b_ec71;

/// Inspects an image with room for so many numbers, by both, and answers what the
/// reference finds.
pub fn compare(
    image: &Image,
    room: usize,
    sequence: &mut Sequence,
    story: &dyn Display,
) -> Result<Vec<Finding>, Refusal> {
    let mut findings = vec![Finding::default(); room / 3];
    let expected = by_reference(image, &mut findings);
    findings.truncate(expected.unwrap_or(0));
    let pattern = numbered(0xa5a5_0000, room);
    let mut expected_rows = pattern.clone();
    put_rows(&mut expected_rows, &findings);

    let lent = Lent::new(image, sequence);
    let (sheet, heap, records) = (lent.sheet.part(), lent.heap.part(), lent.records.part());
    let (profile, list) = (expected_profile(image.profile()), lent.magazines.part());
    let mut rows = Guarded::new(&pattern, sequence);
    let answer = inspect_answer(profile, sheet, heap, records, list, rows.part_mut());
    let count = expected.map(|count| count as u32);
    assert_eq!(answer, expected_answer(count), "room {room}, {story}");
    assert!(rows.holds(&expected_rows), "rows, room {room}, {story}");
    lent.assert_holds(image, story);

    let mut rows = Guarded::new(&pattern, sequence);
    let found = inspect(profile, sheet, heap, records, list, rows.part_mut());
    let found = found.map(|found| found.collect());
    let expected_found = expected.map(|_| findings.iter().map(expected_finding).collect());
    let expected_found: Result<Vec<_>, _> = expected_found.map_err(expected_refusal);
    assert_eq!(found, expected_found, "{story}");
    assert!(rows.holds(&expected_rows), "rows, room {room}, {story}");
    lent.assert_holds(image, story);
    expected.map(|_| findings)
}

/// Fills findings as far as there is room, with the image's magazine list.
pub fn by_reference(image: &Image, findings: &mut [Finding]) -> Result<usize, Refusal> {
    let (sheet, heap, records) = (&image.sheet, &image.heap, &image.records);
    reference::inspect(
        image.profile(),
        sheet,
        heap,
        records,
        &image.magazines,
        findings,
    )
}

pub fn note(counts: &mut Counts, image: &Image, found: Result<Vec<Finding>, Refusal>) {
    let form = image.read_form();
    let findings = match found {
        Ok(findings) => findings,
        Err(refusal) => return counts.note_refusal(form, refusal),
    };
    for finding in findings {
        counts.note(form, Met::Verdict(finding.verdict.number()));
    }
    let walked = chain(image.profile(), &image.sheet, &image.heap, &image.records);
    let ending = walked.expect("an image inspected has a chain").ending;
    counts.note(form, Met::chain(ending));
    counts.note_extremes(image);
}

#[test]
fn hurt_images() {
    let mut counts = Counts::default();
    for profile in PROFILES {
        for number in 0..CASES {
            let (case, mut sequence) = Case::listed(profile, SEED, number);
            let room = sequence.room(3 * case.image.shape.count);
            let found = compare(&case.image, room, &mut sequence, &case);
            note_list(&mut counts, &case.image, room, &found);
            note(&mut counts, &case.image, found);
            counts.note(case.image.form, Met::List(case.list));
            for name in case.hurts {
                counts.note(case.image.form, Met::Hurt(name));
            }
        }
    }
    let hurts: Vec<Met> = HURTS.iter().map(|&(name, _)| Met::Hurt(name)).collect();
    let lists = [&listed::wanted()[..], &listed::CAUSES].concat();
    let wanted = [&VERDICTS[..], &ENDINGS, &READ_REFUSALS, &EXTREMES].concat();
    let wanted = [wanted, hurts, lists].concat();
    counts.finish_with("inspect, hurt images", SEED, &wanted, &[HEADER_VERDICT]);
}

/// Notes what the magazine list came to. No log is tested.
pub fn note_list(
    counts: &mut Counts,
    image: &Image,
    room: usize,
    found: &Result<Vec<Finding>, Refusal>,
) {
    match found {
        Ok(findings) => {
            let verdicts = findings.iter().map(|finding| finding.verdict.number());
            listed::note_buffers(counts, image, verdicts);
        }
        Err(refusal) => {
            let is_short = room < 3 * image.shape.count;
            listed::note_refusal(counts, image, *refusal, &[], is_short);
        }
    }
}

/// What the images are made from: a hurt would mean little if these had faults.
#[test]
fn sound_images_have_no_fault() {
    let mut sequence = Sequence::new(SEED);
    let mut counts = Counts::default();
    for number in 0..8_000 {
        let mut image = sound_image(PROFILES[number % 2], &mut sequence);
        if number % 4 >= 2 {
            cache_some(&mut image, &mut sequence);
        }
        let room = 3 * image.shape.count;
        let found = compare(&image, room, &mut sequence, &image);
        let findings = found.expect("a sound image is not refused");
        let faults = findings.iter().filter(|row| row.verdict.number() >= 20);
        assert_eq!(faults.count(), 0, "sound image {number}: {image}");
        note(&mut counts, &image, Ok(findings));
    }
    counts.finish("inspect, sound images", SEED, &VERDICTS[..4]);
}

#[test]
fn neighbours_of_the_dump() {
    let mut sequence = Sequence::new(SEED);
    let mut counts = Counts::default();
    let mut see = |image: &Image| {
        let found = compare(image, 10, &mut sequence, image);
        note(&mut counts, image, found);
    };
    each_neighbour(&FORMS, &mut see);
    each_cached_neighbour(&FORMS, &mut see);
    let title = "inspect, neighbours of the dump";
    counts.finish_with(title, SEED, &VERDICTS[..4], &[HEADER_VERDICT]);
}

#[test]
fn every_small_size_code() {
    let mut sequence = Sequence::new(SEED);
    let mut counts = Counts::default();
    each_small_size_code(&FORMS, |image| {
        let found = compare(image, 9, &mut sequence, image);
        note(&mut counts, image, found);
    });
    let wanted = [2, 27, 28, 31, 32].map(Met::Verdict);
    let title = "inspect, every small size code";
    counts.finish_with(title, SEED, &wanted, &[HEADER_VERDICT]);
}

/// Buffer sizes about every end of a step that the fill is compared in.
const FILL_SIZES: [usize; 14] = [
    8, 16, 24, 64, 72, 80, 112, 128, 136, 144, 192, 200, 208, 4096,
];

const FILL_PLACES: [Met; 5] = [
    Met::Drawn("fill, its first eight bytes"),
    Met::Drawn("fill, behind them"),
    Met::Drawn("fill, its last eight bytes"),
    Met::Drawn("redzone, R0"),
    Met::Drawn("redzone, R1"),
];

/// Each byte of a free chunk before its tag is hurt, by itself and with one of those behind
/// it: the first that is wrong is named, on the chain and in a magazine.
#[test]
fn every_byte_of_a_free_chunk() {
    let mut sequence = Sequence::new(SEED);
    let mut counts = Counts::default();
    for size in FILL_SIZES {
        let shape = Shape {
            cache: 0x7003_9928,
            heap_base: 0x70a9_a000,
            record_base: 0x70ae_3000,
            size,
            count: 3,
        };
        for form in FORMS {
            let mut chained = Image::laid_out(form, shape, [0; 5]);
            let mut cached = chained.clone();
            cache(&mut cached, &[1]);
            for offset in 0..size + 8 {
                compare_hurts(&mut chained, offset, &mut sequence, &mut counts);
                compare_hurts(&mut cached, offset, &mut sequence, &mut counts);
            }
        }
    }
    let verdicts = [25, 26].map(Met::Verdict);
    let listed = [25, 26].map(|number| Met::Listed(1, number));
    let wanted = [&FILL_PLACES[..], &verdicts, &listed].concat();
    counts.finish("inspect, every byte of a free chunk", SEED, &wanted);
}

/// The middle buffer's byte is hurt, and then another behind it; both are then as they
/// were.
fn compare_hurts(image: &mut Image, offset: usize, sequence: &mut Sequence, counts: &mut Counts) {
    let size = image.shape.size;
    let start = image.shape.chunk_size();
    let behind = offset + 1 + sequence.below(size + 8 - offset);
    let expected = if offset < size {
        Verdict::FillDiffers(offset as u32)
    } else {
        Verdict::RedzoneDiffers(offset as u32)
    };
    let sound = image.heap.clone();
    for at in [offset, behind.min(size + 7)] {
        image.heap[start + at] = sound[start + at] ^ sequence.pick(&[0x01, 0x80, 0xff]);
        let found = compare(image, 9, sequence, image).expect("a lawful image");
        assert_eq!(found[1].verdict, expected, "byte {offset} of {size}");
        let verdicts = found.iter().map(|finding| finding.verdict.number());
        listed::note_buffers(counts, image, verdicts);
        note(counts, image, Ok(found));
    }
    image.heap = sound;
    counts.note(image.form, place_of(offset, size));
}

fn place_of(offset: usize, size: usize) -> Met {
    let [first, behind, last, r0, r1] = FILL_PLACES;
    match offset {
        _ if offset >= size + 4 => r1,
        _ if offset >= size => r0,
        0..=7 => first,
        _ if offset + 8 >= size => last,
        _ => behind,
    }
}
