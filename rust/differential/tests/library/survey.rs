//! The survey, on hurt images with magazine lists, with every room for it and on every chain of
//! three records.

use std::fmt::Display;

use combgallop::{survey, survey_answer};
use differential::samples::dump;
use differential::{Case, Form, Image, Sequence, FORMS, PROFILES};
use reference::{Chain, Ending, Finding, Refusal};

use crate::counts::{Counts, Met, ENDINGS, EXTREMES, HEADER_VERDICT, READ_REFUSALS, VERDICTS};
use crate::expected::{
    expected_answer, expected_finding, expected_profile, expected_refusal, put_rows, SHORT_OUTPUT,
};
use crate::inspect::by_reference;
use crate::lent::{numbered, Guarded, Lent};
use crate::listed;
use crate::report::text_by_reference;

const CASES: u64 = 60_000;
const SEED: u64 = 0x4be2_7716;

/// Causes of the refusals 11 and 3.
const ROWS_SHORT: Met = Met::Drawn("room for the rows alone too short");
const CHAIN_SHORT: Met = Met::Drawn("room for the chain alone too short");
const LOG_WRONG: Met = Met::Drawn("length of the log alone wrong");

/// How many numbers are lent for the rows and for the chain.
#[derive(Clone, Copy, Debug)]
pub struct Room {
    pub rows: usize,
    pub chain: usize,
}

/// What has to be found of an image.
pub struct Found {
    findings: Vec<Finding>,
    chain: Chain,
}

/// Refusals 1, 2, 3 and 4 as the report gives them, which tests the log as well; then 11 by
/// the rows, as inspect gives it, or by the chain.
fn expected_survey(image: &Image, room: Room) -> Result<Found, Refusal> {
    let (sheet, heap, records) = (&image.sheet, &image.heap, &image.records);
    text_by_reference(image)?;
    let mut findings = vec![Finding::default(); room.rows / 3];
    let count = by_reference(image, &mut findings)?;
    findings.truncate(count);
    if room.chain < 3 {
        return Err(SHORT_OUTPUT);
    }
    let chain = reference::chain(image.profile(), sheet, heap, records)?;
    Ok(Found { findings, chain })
}

/// The three numbers of a chain: records met; 0 for its end, 1 where it is broken, 2
/// where it is again at a record; that record's index, else 0.
fn chain_numbers(chain: &Chain) -> [u32; 3] {
    let (ending, record) = match chain.ending {
        Ending::End => (0, 0),
        Ending::Broken => (1, 0),
        Ending::Again(record) => (2, record),
    };
    [chain.met.len() as u32, ending, record as u32]
}

fn expected_chain(chain: &Chain) -> combgallop::Chain {
    combgallop::Chain {
        met: chain.met.len(),
        ending: match chain.ending {
            Ending::End => combgallop::Ending::End,
            Ending::Broken => combgallop::Ending::Broken,
            Ending::Again(record) => combgallop::Ending::Again(record),
        },
    }
}

/// Surveys an image with so much room, by the library in both forms, and answers what
/// has to be found.
pub fn compare(
    image: &Image,
    room: Room,
    sequence: &mut Sequence,
    story: &dyn Display,
) -> Result<Found, Refusal> {
    let lent = Lent::new(image, sequence);
    let rows = numbered(0xa5a5_0000, room.rows);
    compare_survey(image, &lent, &rows, sequence, story);
    compare_answer(image, &lent, &rows, room, sequence, story)
}

/// The form that hands back findings and chain, which has its own room for the chain.
fn compare_survey(
    image: &Image,
    lent: &Lent,
    pattern: &[u32],
    sequence: &mut Sequence,
    story: &dyn Display,
) {
    let room = Room {
        rows: pattern.len(),
        chain: 3,
    };
    let mut expected_rows = pattern.to_vec();
    let expected = expected_survey(image, room).map(|found| {
        put_rows(&mut expected_rows, &found.findings);
        let findings: Vec<_> = found.findings.iter().map(expected_finding).collect();
        (findings, expected_chain(&found.chain))
    });
    let (sheet, heap, records) = (lent.sheet.part(), lent.heap.part(), lent.records.part());
    let mut rows = Guarded::new(pattern, sequence);
    let (list, log) = (lent.magazines.part(), lent.log.part());
    let profile = expected_profile(image.profile());
    let found = survey(profile, sheet, heap, records, list, log, rows.part_mut());
    let found = found.map(|found| (found.findings.collect(), found.chain));
    let expected = expected.map_err(expected_refusal);
    assert_eq!(found, expected, "{room:?}, {story}");
    assert!(rows.holds(&expected_rows), "rows, {room:?}, {story}");
    lent.assert_holds(image, story);
}

/// The form that fills numbers for the chain too.
fn compare_answer(
    image: &Image,
    lent: &Lent,
    pattern: &[u32],
    room: Room,
    sequence: &mut Sequence,
    story: &dyn Display,
) -> Result<Found, Refusal> {
    let chain_pattern = numbered(0x5a5a_0000, room.chain);
    let (mut expected_rows, mut expected_chain) = (pattern.to_vec(), chain_pattern.clone());
    let expected = expected_survey(image, room);
    if let Ok(found) = &expected {
        put_rows(&mut expected_rows, &found.findings);
        expected_chain[..3].copy_from_slice(&chain_numbers(&found.chain));
    }
    let value = match &expected {
        Ok(found) => Ok(found.findings.len() as u32),
        Err(refusal) => Err(*refusal),
    };
    let (sheet, heap, records) = (lent.sheet.part(), lent.heap.part(), lent.records.part());
    let mut rows = Guarded::new(pattern, sequence);
    let mut chain = Guarded::new(&chain_pattern, sequence);
    let (rows_part, chain_part) = (rows.part_mut(), chain.part_mut());
    let (list, log) = (lent.magazines.part(), lent.log.part());
    let profile = expected_profile(image.profile());
    let answer = survey_answer(
        profile, sheet, heap, records, list, log, rows_part, chain_part,
    );
    assert_eq!(answer, expected_answer(value), "{room:?}, {story}");
    assert!(rows.holds(&expected_rows), "rows, {room:?}, {story}");
    assert!(chain.holds(&expected_chain), "chain, {room:?}, {story}");
    lent.assert_holds(image, story);
    expected
}

pub fn note(counts: &mut Counts, image: &Image, room: Room, found: Result<Found, Refusal>) {
    let form = image.read_form();
    let found = match found {
        Ok(found) => found,
        Err(refusal) => return note_refusal(counts, image, room, refusal),
    };
    for finding in found.findings {
        counts.note(form, Met::Verdict(finding.verdict.number()));
    }
    counts.note(form, Met::chain(found.chain.ending));
    counts.note_extremes(image);
}

/// Notes a refusal, and its cause where the number alone does not say.
fn note_refusal(counts: &mut Counts, image: &Image, room: Room, refusal: Refusal) {
    let form = image.read_form();
    counts.note_refusal(form, refusal);
    let mut findings = vec![Finding::default(); room.rows / 3];
    let inspected = by_reference(image, &mut findings);
    let rows_suffice = inspected.is_ok();
    let are_areas = inspected.map_or_else(|refusal| refusal.number > 3, |_| true);
    match refusal.number {
        3 if are_areas => counts.note(form, LOG_WRONG),
        11 if rows_suffice => counts.note(form, CHAIN_SHORT),
        11 if room.chain >= 3 => counts.note(form, ROWS_SHORT),
        _ => {}
    }
}

#[test]
fn hurt_images() {
    let mut counts = Counts::default();
    for profile in PROFILES {
        for number in 0..CASES {
            let (case, mut sequence) = Case::listed(profile, SEED, number);
            let room = Room {
                rows: sequence.room(3 * case.image.shape.count),
                chain: sequence.room(3),
            };
            let found = compare(&case.image, room, &mut sequence, &case);
            note_list(&mut counts, &case.image, room, &found);
            note(&mut counts, &case.image, room, found);
            counts.note(case.image.form, Met::List(case.list));
        }
    }
    let causes = [ROWS_SHORT, CHAIN_SHORT, LOG_WRONG];
    let lists = [&listed::wanted()[..], &listed::CAUSES, &listed::LOG_CAUSES].concat();
    let wanted = [&VERDICTS[..], &ENDINGS, &READ_REFUSALS, &EXTREMES, &causes].concat();
    let wanted = [wanted, lists].concat();
    counts.finish_with("survey, hurt images", SEED, &wanted, &[HEADER_VERDICT]);
}

/// Notes what the magazine list came to.
fn note_list(counts: &mut Counts, image: &Image, room: Room, found: &Result<Found, Refusal>) {
    match found {
        Ok(found) => {
            let verdicts = found.findings.iter();
            let verdicts = verdicts.map(|finding| finding.verdict.number());
            listed::note_buffers(counts, image, verdicts);
        }
        Err(refusal) => {
            let is_short = room.rows < 3 * image.shape.count || room.chain < 3;
            listed::note_refusal(counts, image, *refusal, &image.log, is_short);
        }
    }
}

/// Every room from none to more than enough, for the dump's three buffers.
#[test]
fn every_room() {
    let mut sequence = Sequence::new(SEED);
    let mut counts = Counts::default();
    for image in FORMS.map(dump) {
        for (rows, chain) in (0..13).flat_map(|rows| (0..6).map(move |chain| (rows, chain))) {
            let room = Room { rows, chain };
            let found = compare(&image, room, &mut sequence, &image);
            assert_eq!(found.is_ok(), rows >= 9 && chain >= 3, "{room:?}");
            note(&mut counts, &image, room, found);
        }
    }
    let wanted = [ROWS_SHORT, CHAIN_SHORT, Met::Refusal(11, 0)];
    counts.finish("survey, every room", SEED, &wanted);
}

/// The dump with its head and each of its three next words at 0, at each record, and
/// where no record starts.
#[test]
fn every_chain() {
    let mut sequence = Sequence::new(SEED);
    let mut counts = Counts::default();
    for form in FORMS {
        compare_chains(form, &mut sequence, &mut counts);
    }
    counts.finish("survey, every chain of three records", SEED, &ENDINGS);
}

fn compare_chains(form: Form, sequence: &mut Sequence, counts: &mut Counts) {
    let mut image = dump(form);
    let [first, second, third] = [0, 1, 2].map(|record| image.record_address(record));
    let targets = [0, first, second, third, second + 4];
    let room = Room { rows: 9, chain: 3 };
    for choice in 0..5 * 5 * 5 * 5 {
        let target = |place: u32| targets[choice / 5usize.pow(place) % 5];
        image.put_head(target(3));
        for record in 0..3 {
            let next = image.record(record as usize);
            image.put_record_word(next, target(record));
        }
        let found = compare(&image, room, sequence, &image);
        note(counts, &image, room, found);
    }
}
