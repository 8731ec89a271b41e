//! Inputs drawn from a fixed sequence: no call panics, and a refused call changes no
//! byte.

use crate::image::{dump, put_sheet, refused, Form, Image, BUFFER_0, BUFFER_1, BUFFER_2, FORMS};
use crate::made::*;
use reference::*;

/// A fixed sequence of numbers.
pub struct Sequence {
    state: u64,
}

impl Sequence {
    pub fn new(seed: u64) -> Sequence {
        Sequence { state: seed }
    }

    pub fn word(&mut self) -> u32 {
        let step = self.state.wrapping_mul(6_364_136_223_846_793_005);
        self.state = step.wrapping_add(1_442_695_040_888_963_407);
        (self.state >> 32) as u32
    }

    pub fn below(&mut self, limit: u32) -> u32 {
        ((u64::from(self.word()) * u64::from(limit)) >> 32) as u32
    }

    pub fn byte(&mut self) -> u8 {
        self.below(256) as u8
    }
}

/// Words that mean something in the dump.
const WORDS: [u32; 28] = [
    0, 1, 0x139d, 0x1789, 0xfeedface, 0xbbedface, 0xfeedfabb, 0xdeadbeef, 0x70a9add8, 0x70a9ae00,
    0x70a9ae28, 0x70ae31a0, 0x70ae3200, 0x70ae3260, 0x8440c68e, 0xd1befaed, 0xffffffff, 0x70ae3204,
    0x70ae3268, 0x8440c686, 0xd1befae9, 0x14, 0x18, 0x3a10bfec, 0x3a10bfe8, 0x7d9, 0x139e, 0x1884,
];

/// The dump in some form with a few words and bytes changed, and now and then an area
/// cut.
fn some_image(sequence: &mut Sequence) -> Image {
    let mut image = dump(FORMS[sequence.below(6) as usize]);
    for _ in 0..sequence.below(5) {
        let word = WORDS[sequence.below(28) as usize];
        match sequence.below(12) {
            0..=3 => image.put_heap(4 * sequence.below(30) as usize, word),
            4..=7 => {
                let words = image.records.len() as u32 / 4;
                image.put_record(4 * sequence.below(words) as usize, word);
            }
            8..=9 => put_sheet(&mut image.sheet, 39, word),
            10 => {
                let at = sequence.below(image.sheet.len() as u32) as usize;
                image.sheet[at] = sequence.byte();
            }
            _ => image.heap[sequence.below(120) as usize] = sequence.byte(),
        }
    }
    match sequence.below(20) {
        0 => image.sheet.truncate(sequence.below(52) as usize),
        1 => image.heap.truncate(sequence.below(120) as usize),
        2 => image.records.truncate(sequence.below(288) as usize),
        3 => {
            // The other profile, whose records fit or do not.
            let length = image.form.of(300, 288);
            image.form = FORMS[sequence.below(6) as usize];
            if sequence.below(2) == 0 {
                image.records.resize(length, 0);
            }
        }
        _ => {}
    }
    image
}

/// A word that means something, or any.
fn some_word(sequence: &mut Sequence) -> u32 {
    match sequence.below(4) {
        0 => sequence.word(),
        1 => sequence.below(30),
        _ => WORDS[sequence.below(28) as usize],
    }
}

fn some_grant(sequence: &mut Sequence) -> Grant {
    match sequence.below(4) {
        0 => Grant::Whole,
        1 => Grant::Sized(20),
        2 => Grant::Sized(12),
        _ => Grant::Sized(some_word(sequence)),
    }
}

#[test]
fn a_changing_call_refuses_or_changes_but_not_both() {
    let mut sequence = Sequence::new(11);
    let mut refusals = 0;
    for _ in 0..20_000 {
        let before = some_image(&mut sequence);
        let mut image = before.clone();
        let Image {
            sheet,
            heap,
            records,
            form,
        } = &mut image;
        let profile = form.profile();
        let grant = some_grant(&mut sequence);
        let address = some_word(&mut sequence);
        // A byte the heap has not, so that an accepted store changes it.
        let byte = (0..=255).find(|byte| !heap.contains(byte)).unwrap();
        let answer = match sequence.below(3) {
            0 => allocate(profile, sheet, heap, records, grant, 1, 2).map(|_| ()),
            1 => free(profile, sheet, heap, records, address, grant, 1, 2),
            _ => store(
                profile,
                sheet,
                heap,
                records,
                address,
                sequence.below(20),
                &[byte],
            ),
        };
        assert_eq!(answer.is_err(), image == before);
        refusals += usize::from(answer.is_err());
    }
    assert!((1_000..19_000).contains(&refusals), "{refusals}");
}

/// "After 3 and before every other test of those calls": thread 0 is refused with 1, 2
/// or 3 just where another thread is, and else with 13.
#[test]
fn thread_0_is_refused_with_1_2_3_or_13() {
    let mut sequence = Sequence::new(14);
    let mut thirteens = 0;
    for _ in 0..20_000 {
        let before = some_image(&mut sequence);
        let grant = some_grant(&mut sequence);
        let address = some_word(&mut sequence);
        let is_free = sequence.below(2) == 0;
        let call_by = |thread, image: &mut Image| {
            let Image {
                sheet,
                heap,
                records,
                form,
            } = image;
            let profile = form.profile();
            if is_free {
                free(profile, sheet, heap, records, address, grant, 1, thread)
            } else {
                allocate(profile, sheet, heap, records, grant, 1, thread).map(|_| ())
            }
        };
        let mut image = before.clone();
        let by_nobody = call_by(0, &mut image);
        assert_eq!(image, before);
        let by_another = call_by(1, &mut image);
        match by_another {
            Err(Refusal { number: 1..=3, .. }) => assert_eq!(by_nobody, by_another),
            _ => {
                assert_eq!(by_nobody, refused(13));
                thirteens += 1;
            }
        }
    }
    assert!((10_000..20_000).contains(&thirteens), "{thirteens}");
}

#[test]
fn reading_calls_agree_on_refusals_and_faults() {
    let mut sequence = Sequence::new(12);
    let mut accepted = 0;
    for _ in 0..20_000 {
        let image = some_image(&mut sequence);
        let (sheet, heap, records) = (&image.sheet, &image.heap, &image.records);
        let profile = image.form.profile();
        let mut rows = [Finding::default(); 512];
        let mut output = [0; 16_384];
        let inspected = inspect(profile, sheet, heap, records, &[], &mut rows);
        let reported = report(profile, sheet, heap, records, &[], &[], &mut output);
        let walked = chain(profile, sheet, heap, records);
        assert_eq!(inspected.err(), reported.err());
        assert_eq!(inspected.err(), walked.err());
        let Ok(count) = inspected else {
            continue;
        };
        accepted += 1;
        let faults = rows[..count]
            .iter()
            .filter(|row| row.verdict.number() >= 20);
        let last_line = format!("faults {}\n", faults.count());
        assert!(output[..reported.unwrap()].ends_with(last_line.as_bytes()));
    }
    assert!((10_000..20_000).contains(&accepted), "{accepted}");
}

/// A list of up to four words, most of them starts of the dump's buffers.
fn some_magazines(sequence: &mut Sequence) -> Vec<u32> {
    let words = sequence.below(5);
    (0..words)
        .map(|_| match sequence.below(12) {
            0 => some_word(sequence),
            _ => [BUFFER_0, BUFFER_1, BUFFER_2][sequence.below(3) as usize],
        })
        .collect()
}

/// The starts of three buffers of 24 bytes, by the heap base in a lawful sheet.
fn starts(image: &Image) -> [u32; 3] {
    let base = u32::from_be_bytes(image.sheet[10..14].try_into().unwrap());
    [0, 40, 80].map(|chunk| base + chunk)
}

/// What the list itself is refused with for an image of three buffers: 3 "over n words",
/// then 4 for "no buffer's start".
fn list_refusal(image: &Image, magazines: &[u32]) -> Option<u8> {
    let starts = starts(image);
    if magazines.len() > 3 {
        Some(3)
    } else if magazines.iter().any(|word| !starts.contains(word)) {
        Some(4)
    } else {
        None
    }
}

/// The verdict on a free buffer by its bytes, where it is off the chain and listed once.
fn cached_verdict(image: &Image, index: usize) -> (u32, u32) {
    let form = match sheet_order(&image.sheet) {
        Ok(Order::LowFirst) => Form::Low,
        _ => Form::High,
    };
    let sound = [form.words(&[0xdeadbeef; 6]), form.words(&[0xfeedface; 2])].concat();
    let bytes = &image.heap[40 * index..][..32];
    match (0..32).find(|&at| bytes[at] != sound[at]) {
        None => (3, 0),
        Some(at @ 0..24) => (25, at as u32),
        Some(at) => (26, at as u32),
    }
}

/// The verdict on a buffer listed so often, by its verdict with an empty list.
fn listed_verdict(image: &Image, index: usize, alone: (u32, u32), listed: usize) -> (u32, u32) {
    match (alone.0, listed) {
        (_, 0) | (20..=22, _) => alone,
        // Listed twice or more; or on the chain, of the free or the allocated pattern.
        (_, 2..) | (0 | 24..=26, _) => (22, 0),
        (23, _) => cached_verdict(image, index),
        // The allocated pattern, off the chain.
        _ => (24, 0),
    }
}

/// The verdicts on the three buffers of an image with an accepted list, tested against
/// those with an empty list and against the `I cached` lines of the report.
fn tested_verdicts(image: &Image, magazines: &[u32]) -> [(u32, u32); 3] {
    let alone = verdicts(image);
    let found = verdicts_with(image, magazines);
    let text = text_with(image, magazines);
    for (index, start) in starts(image).into_iter().enumerate() {
        let listed = magazines.iter().filter(|word| **word == start).count();
        let expected = listed_verdict(image, index, alone[index], listed);
        assert_eq!(found[index], expected);
        let is_cached = text.contains(&format!("\n{index} cached\n"));
        assert_eq!(is_cached, expected.0 == 3);
    }
    found
}

#[test]
fn list_changes_verdicts_as_its_rules_say() {
    let mut sequence = Sequence::new(15);
    let mut seen = [0; 33];
    for _ in 0..20_000 {
        let image = some_image(&mut sequence);
        let magazines = some_magazines(&mut sequence);
        let mut rows = [Finding::default(); 3];
        let mut output = [0; 200];
        let alone = inspected(&image, &[], &mut rows);
        let answer = inspected(&image, &magazines, &mut rows);
        let answer_of_report = reported(&image, &magazines, &[], &mut output);
        assert_eq!(answer.err(), answer_of_report.err());
        if alone.is_err() {
            assert_eq!(answer, alone);
        } else if let Some(number) = list_refusal(&image, &magazines) {
            assert_eq!(answer, refused(number));
        } else {
            for (number, _) in tested_verdicts(&image, &magazines) {
                seen[number as usize] += 1;
            }
        }
    }
    for number in [0, 1, 2, 3, 20, 21, 22, 23, 24, 25, 26, 27, 28, 30, 31, 32] {
        assert!(seen[number] > 0, "{number}");
    }
    assert!(seen[3] > 100, "{}", seen[3]);
}

#[test]
fn latest_names_a_row_or_record_there_is() {
    let mut sequence = Sequence::new(13);
    let mut rows_found = 0;
    for _ in 0..20_000 {
        let image = some_image(&mut sequence);
        let words: Vec<u32> = (0..8).map(|_| some_word(&mut sequence)).collect();
        let log = image.form.words(&words);
        let index = sequence.below(4);
        let now = some_word(&mut sequence);
        match latest(
            image.form.profile(),
            &image.sheet,
            &image.heap,
            &image.records,
            &log,
            index,
            now,
        ) {
            Ok(Latest::Row(row)) => {
                let records = [0, 1, 2].map(|record| image.form.record(record));
                let names_a_record = records.contains(&words[4 * row]);
                assert!(names_a_record || image.sheet != dump(image.form).sheet);
                rows_found += 1;
            }
            Ok(Latest::Record(record)) => assert!(record < 3),
            Err(refusal) => assert!([1, 2, 3, 4, 7, 12].contains(&refusal.number)),
        }
    }
    assert!(rows_found > 100, "{rows_found}");
}
