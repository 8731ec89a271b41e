//! Images over borrowed bytes: refused as the reference refuses, and read at the places that the
//! rules name.

use combgallop::{Latest, Transaction};
use differential::latest::{some_index, some_now};
use differential::samples::dump;
use differential::{Case, Image, Sequence, FORMS, PROFILES};
use reference::{program, Finding, Profile};

use crate::counts::{Counts, Met};
use crate::expected::{expected_finding, expected_order, expected_profile, expected_refusal};
use crate::inspect::by_reference;
use crate::report::text_by_reference;

const CASES: u64 = 20_000;
const SEED: u64 = 0x1d90_c3a4;

/// All that can be met where an image is made.
const WANTED: [Met; 7] = [
    Met::Refusal(1, 0),
    Met::Refusal(2, 0),
    Met::Refusal(3, 0),
    Met::Refusal(4, 0),
    Met::Latest("row"),
    Met::Latest("record"),
    Met::Latest("refused"),
];

/// The library's image of the same parts and list.
fn made(image: &Image) -> Result<combgallop::Image<'_>, combgallop::Refusal> {
    let made = combgallop::Image::new(
        expected_profile(image.profile()),
        &image.sheet,
        &image.heap,
        &image.records,
        &image.log,
    );
    made?.with_magazines(&image.magazines)
}

/// The words of every record and of every row of the log, and none behind the last.
fn compare_words(image: &Image, found: combgallop::Image, story: &Case) {
    let order = found.order();
    let count = found.count();
    let size = image.record_size();
    for index in 0..count {
        let record = found.record(index).expect("a record");
        let bytes = &image.records[size * index as usize..][..size];
        let stamp = order.long(bytes[16..24].try_into().expect("8 bytes"));
        let words = [0, 4, 24].map(|at| order.word(bytes[at..at + 4].try_into().expect("4")));
        assert_eq!(
            [record.next, record.buffer, record.thread],
            words,
            "{story}"
        );
        assert_eq!(record.stamp, stamp, "{story}");
    }
    for (index, bytes) in image.log.chunks(16).enumerate() {
        let row = found.row(index as u32).expect("a row");
        let words = [0, 4, 8, 12].map(|at| order.word(bytes[at..at + 4].try_into().expect("4")));
        assert_eq!(
            [row.record, row.uptime, row.thread, row.kind],
            words,
            "{story}"
        );
    }
    assert_eq!(found.log_rows(), image.log.len() / 16, "{story}");
    assert_eq!(found.record(count), None, "{story}");
    assert_eq!(found.chunk(count), None, "{story}");
    assert_eq!(found.row(found.log_rows() as u32), None, "{story}");
}

/// The places of buffers and records, both ways.
fn compare_places(image: &Image, found: combgallop::Image, story: &Case) {
    let sheet = found.sheet();
    assert_eq!(sheet.head, image.head(), "{story}");
    let (step, size) = (sheet.chunk_size, image.record_size() as u32);
    for index in 0..sheet.count {
        let buffer = sheet.heap_base + index * step;
        assert_eq!(found.buffer_address(index), buffer, "{story}");
        assert_eq!(found.buffer_at(buffer), Some(index), "{story}");
        assert_eq!(found.buffer_at(buffer + 8), None, "{story}");
        let record = sheet.record_base + index * size;
        assert_eq!(found.record_address(index), record, "{story}");
        assert_eq!(found.record_at(record), Some(index), "{story}");
        assert_eq!(found.record_at(record + 4), None, "{story}");
        let start = (index * step) as usize;
        let chunk = &image.heap[start..start + step as usize];
        assert_eq!(found.chunk(index), Some(chunk), "{story}");
    }
    let heap_end = sheet.heap_base.wrapping_add(sheet.count * step);
    assert_eq!(found.buffer_at(heap_end), None, "{story}");
    assert_eq!(found.buffer_at(sheet.heap_base - 1), None, "{story}");
}

/// The readers as methods, and the order of the chain.
fn compare_readers(image: &Image, found: combgallop::Image, story: &Case) {
    let count = found.count() as usize;
    let mut findings = vec![Finding::default(); count];
    by_reference(image, &mut findings).expect("room for every finding");
    let findings: Vec<_> = findings.iter().map(expected_finding).collect();
    let mut rows = vec![0; found.rows_length()];
    let inspected = found.inspect(&mut rows).expect("room for every row");
    assert!(inspected.eq(findings.iter().copied()), "{story}");
    let survey = found.survey(&mut rows).expect("room for every row");
    assert!(survey.findings.eq(findings), "{story}");
    let (sheet, heap, records) = (&image.sheet, &image.heap, &image.records);
    let chain = reference::chain(image.profile(), sheet, heap, records).expect("a chain");
    let met: Vec<usize> = found
        .records_met(survey.chain)
        .map(|record| record as usize)
        .collect();
    assert_eq!(met, chain.met, "{story}");
    let mut output = vec![0; 1 << 16];
    let length = found.report(&mut output).expect("room for the text");
    let text = text_by_reference(image).expect("a text");
    assert_eq!(&output[..length], text.as_bytes(), "{story}");
}

/// What the row or the record of a latest transaction says.
fn said(found: combgallop::Image, place: reference::Latest) -> Transaction {
    match place {
        reference::Latest::Row(index) => {
            let row = found.row(index as u32).expect("a row");
            Transaction {
                place: Latest::Row(index),
                thread: row.thread,
                uptime: row.uptime,
                kind: Some(row.kind),
            }
        }
        reference::Latest::Record(index) => {
            let record = found.record(index as u32).expect("a record");
            Transaction {
                place: Latest::Record(index),
                thread: record.thread,
                uptime: record.stamp.try_into().expect("a stamp of 32 bits"),
                kind: None,
            }
        }
    }
}

/// The latest transaction, and what its row or record says.
fn compare_latest(
    image: &Image,
    found: combgallop::Image,
    sequence: &mut Sequence,
    story: &Case,
) -> &'static str {
    let index = some_index(image, sequence);
    let now = some_now(image, sequence);
    let (sheet, heap, records) = (&image.sheet, &image.heap, &image.records);
    let profile = image.profile();
    let expected = reference::latest(profile, sheet, heap, records, &image.log, index, now);
    let latest = found.latest(index, now);
    let transaction = latest.map(|place| found.transaction(place).expect("a row or a record"));
    let expected = expected.map(|place| said(found, place));
    assert_eq!(transaction, expected.map_err(expected_refusal), "{story}");
    match transaction {
        Err(_) => "refused",
        Ok(transaction) => {
            let age = now.wrapping_sub(transaction.uptime);
            assert_eq!(transaction.age(now), age, "{story}");
            match transaction.place {
                Latest::Row(_) => "row",
                Latest::Record(_) => "record",
            }
        }
    }
}

#[test]
fn hurt_images() {
    let mut counts = Counts::default();
    for profile in PROFILES {
        for number in 0..CASES {
            let (case, mut sequence) = Case::listed(profile, SEED, number);
            let image = &case.image;
            let form = image.read_form();
            let found = match (made(image), text_by_reference(image)) {
                (Ok(found), Ok(_)) => found,
                (found, text) => {
                    let refusal = text.expect_err("a refusal");
                    assert_eq!(found.err(), Some(expected_refusal(refusal)), "{case}");
                    counts.note_refusal(form, refusal);
                    continue;
                }
            };
            assert_eq!(found.order(), expected_order(form.order()), "{case}");
            assert_eq!(found.magazines(), image.magazines, "{case}");
            compare_words(image, found, &case);
            compare_places(image, found, &case);
            compare_readers(image, found, &case);
            let latest = compare_latest(image, found, &mut sequence, &case);
            counts.note(form, Met::Latest(latest));
        }
    }
    counts.finish("images over borrowed bytes", SEED, &WANTED);
}

/// "Input that ends early makes the sheet (1) or an area (3) wrong": the dump with a log of two
/// rows, cut at every place. Of the kernel's profile the reference's program says the same.
#[test]
fn dump_split_at_every_place() {
    for form in FORMS {
        let mut image = dump(form);
        image.log = vec![1; 32];
        let input = image.input();
        let sheet_end = 1 + image.sheet.len();
        let records_end = sheet_end + image.heap.len() + image.records.len();
        for length in 0..=input.len() {
            let bytes = &input[..length];
            let found = combgallop::Image::split(expected_profile(form.profile()), bytes);
            let refusal = found.err().map(|refusal| refusal.number());
            let is_whole = length >= records_end && (length - records_end).is_multiple_of(16);
            let expected = match length {
                _ if length < sheet_end => Some(1),
                _ if is_whole => None,
                _ => Some(3),
            };
            assert_eq!(refusal, expected, "{form:?} dump, the first {length} bytes");
            if form.profile() == Profile::Kernel {
                let text = String::from_utf8_lossy(&program(bytes)).into_owned();
                let number = text.strip_prefix("refused ");
                let number = number.and_then(|number| number.trim_end().parse().ok());
                assert_eq!(refusal, number, "{form:?} dump, the first {length} bytes");
            }
        }
    }
}
