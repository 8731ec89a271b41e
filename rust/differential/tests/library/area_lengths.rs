//! The lengths of a sheet's areas, on hurt images and on every neighbour of the dump's
//! sheet.

use std::fmt::Display;

use combgallop::{area_lengths, area_lengths_answer, AreaLengths};
use differential::samples::dump;
use differential::{Case, Form, Image, Sequence, FORMS, PROFILES};
use reference::{Profile, Refusal};

use crate::counts::{Counts, Met, EXTREMES};
use crate::expected::{expected_answer, expected_profile, expected_refusal, SHORT_OUTPUT};
use crate::lent::{numbered, Guarded};

const CASES: u64 = 60_000;
const SEED: u64 = 0x61d9_0b3f;

const ACCEPTED: Met = Met::Accepted("area lengths");

/// The refusals that it can give.
const REFUSALS: [Met; 3] = [Met::Refusal(1, 0), Met::Refusal(2, 0), Met::Refusal(11, 0)];

/// Asks for the lengths with room for so many numbers, by the library in both forms,
/// and answers whether it was to be refused.
pub fn compare(
    profile: Profile,
    sheet: &[u8],
    room: usize,
    sequence: &mut Sequence,
    story: &dyn Display,
) -> Result<(), Refusal> {
    let expected = reference::area_lengths(profile, sheet);
    let profile = expected_profile(profile);
    let lent = Guarded::new(sheet, sequence);
    let found = area_lengths(profile, lent.part());
    let expected_found = expected.map(|(heap, records)| AreaLengths { heap, records });
    let expected_found = expected_found.map_err(expected_refusal);
    assert_eq!(found, expected_found, "{story}");
    assert!(lent.holds(sheet), "sheet differs: {story}");

    let pattern = numbered(0xa5a5_0000, room);
    let mut expected_lengths = pattern.clone();
    let expected = expected.and_then(|(heap, records)| match &mut expected_lengths[..] {
        [first, second, ..] => {
            (*first, *second) = (heap as u32, records as u32);
            Ok(())
        }
        _ => Err(SHORT_OUTPUT),
    });
    let mut lengths = Guarded::new(&pattern, sequence);
    let answer = area_lengths_answer(profile, lent.part(), lengths.part_mut());
    let expected_answer = expected_answer(expected.map(|()| 0));
    assert_eq!(answer, expected_answer, "room {room}, {story}");
    let lengths_agree = lengths.holds(&expected_lengths);
    assert!(lengths_agree, "lengths, room {room}, {story}");
    assert!(lent.holds(sheet), "sheet differs: {story}");
    expected
}

pub fn note(counts: &mut Counts, image: &Image, found: Result<(), Refusal>) {
    let form = image.read_form();
    match found {
        Ok(()) => {
            counts.note(form, ACCEPTED);
            counts.note_extremes(image);
        }
        Err(refusal) => counts.note_refusal(form, refusal),
    }
}

#[test]
fn hurt_images() {
    let mut counts = Counts::default();
    for profile in PROFILES {
        for number in 0..CASES {
            let (case, mut sequence) = Case::new(profile, SEED, number);
            let room = sequence.pick(&[0, 1, 2, 2, 2, 3, 40]);
            let found = compare(profile, &case.image.sheet, room, &mut sequence, &case);
            note(&mut counts, &case.image, found);
        }
    }
    let wanted = [&[ACCEPTED], &REFUSALS[..], &EXTREMES].concat();
    counts.finish("area lengths, hurt images", SEED, &wanted);
}

/// Each byte of the dump's sheet changed to each other value, with every room.
#[test]
fn neighbours_of_the_dump() {
    let mut sequence = Sequence::new(SEED);
    let mut counts = Counts::default();
    for form in FORMS {
        compare_neighbours(form, &mut sequence, &mut counts);
    }
    let wanted = [&[ACCEPTED], &REFUSALS[..]].concat();
    counts.finish("area lengths, neighbours of the dump", SEED, &wanted);
}

fn compare_neighbours(form: Form, sequence: &mut Sequence, counts: &mut Counts) {
    let mut image = dump(form);
    for at in 0..image.sheet.len() {
        let stood = image.sheet[at];
        for value in 0..=255 {
            image.sheet[at] = value;
            for room in 0..4 {
                let found = compare(form.profile(), &image.sheet, room, sequence, &image);
                note(counts, &image, found);
            }
        }
        image.sheet[at] = stood;
    }
}
