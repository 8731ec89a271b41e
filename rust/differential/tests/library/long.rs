//! Lengths past 2^32 whose low 32 bits are lawful. No call reads or writes so far, so
//! the system never has to provide the bytes.

use combgallop::{Answer, Grant};
use differential::samples::{dump, dump_request};
use differential::{Form, Image, FORMS};

use crate::expected::{expected_order, expected_profile};

const TWO_TO_THE_32: usize = 1 << 32;

/// The dump's buffer 1, the one that is allocated.
const BUFFER: u32 = 0x70a9_ae00;

#[test]
fn stores_of_2_to_the_32_bytes() {
    let long = vec![0; TWO_TO_THE_32 + 20];
    let runs = [
        (0, TWO_TO_THE_32),
        (0, TWO_TO_THE_32 + 20),
        (1, TWO_TO_THE_32 - 1),
        (8, TWO_TO_THE_32 - 4),
        (20, TWO_TO_THE_32),
        (u32::MAX, TWO_TO_THE_32),
    ];
    for form in FORMS {
        let Image {
            sheet,
            mut heap,
            records,
            ..
        } = dump(form);
        let before = heap.clone();
        for (offset, length) in runs {
            let (heap, bytes) = (&mut heap[..], &long[..length]);
            let answer = combgallop::store_answer(
                expected_profile(form.profile()),
                &sheet,
                heap,
                &records,
                BUFFER,
                offset,
                bytes,
            );
            assert_eq!(answer, Answer(10), "{form:?}, {length} bytes at {offset}");
            assert_eq!(heap, before, "{form:?}, {length} bytes at {offset}");
        }
    }
}

/// Each area in turn starts as the dump's, and is 2^32 bytes longer.
#[test]
fn areas_longer_by_2_to_the_32() {
    let mut long = vec![0; TWO_TO_THE_32 + 4096];
    for form in FORMS {
        for area in 0..3 {
            lengthen(form, area, &mut long);
        }
    }
}

fn lengthen(form: Form, area: usize, long: &mut [u8]) {
    let image = dump(form);
    let Image {
        mut sheet,
        mut heap,
        mut records,
        ..
    } = image.clone();
    let lengthened = [&sheet, &heap, &records][area].clone();
    long[..lengthened.len()].copy_from_slice(&lengthened);
    let longer = &mut long[..TWO_TO_THE_32 + lengthened.len()];
    let answers = match area {
        0 => every_answer(form, longer, &mut heap, &mut records),
        1 => every_answer(form, &mut sheet, longer, &mut records),
        _ => every_answer(form, &mut sheet, &mut heap, longer),
    };
    assert_eq!(answers, expected_answers(form, area), "{form:?} {area}");
    let before = [image.sheet, image.heap, image.records];
    assert_eq!([sheet, heap, records], before, "{form:?} {area}");
    assert!(long.starts_with(&lengthened), "{form:?} {area}");
    long[..lengthened.len()].fill(0);
}

/// Refusal 1 for the sheet and 3 for the other areas; but lay out needs a sheet area of
/// the long form's length.
fn expected_answers(form: Form, area: usize) -> [Answer; 9] {
    let mut answers = [Answer([1, 3, 3][area]); 9];
    if form.is_short() {
        answers[0] = Answer(1);
    }
    answers
}

/// Each call and each reader. All would be accepted on the dump, but for the lay out on
/// its short sheet.
fn every_answer(form: Form, sheet: &mut [u8], heap: &mut [u8], records: &mut [u8]) -> [Answer; 9] {
    let (whole, grant) = (Grant::Whole, Grant::Sized(dump_request(form)));
    let p = expected_profile(form.profile());
    let order = expected_order(form.order());
    let shape = dump(form).shape;
    let (heap_base, record_base) = (shape.heap_base, shape.record_base);
    let list: &[u32] = &[];
    [
        combgallop::lay_out_answer(
            p,
            order,
            1,
            heap_base,
            record_base,
            24,
            3,
            sheet,
            heap,
            records,
        ),
        combgallop::allocate_answer(p, sheet, heap, records, whole, 1, 2),
        combgallop::free_answer(p, sheet, heap, records, BUFFER, grant, 1, 2),
        combgallop::store_answer(p, sheet, heap, records, BUFFER, 0, &[1]),
        combgallop::show_answer(p, sheet, heap, records, BUFFER),
        combgallop::inspect_answer(p, sheet, heap, records, list, &mut [0; 9]),
        combgallop::survey_answer(p, sheet, heap, records, list, &[], &mut [0; 9], &mut [0; 3]),
        combgallop::latest_answer(p, sheet, heap, records, &[], 1, 2),
        combgallop::report_answer(p, sheet, heap, records, list, &[], &mut [0; 64]),
    ]
}

#[test]
fn sheet_longer_by_2_to_the_32() {
    let mut long = vec![0; TWO_TO_THE_32 + 52];
    for form in FORMS {
        let sheet = dump(form).sheet;
        long[..sheet.len()].copy_from_slice(&sheet);
        let longer = &long[..TWO_TO_THE_32 + sheet.len()];
        let profile = expected_profile(form.profile());
        let answer = combgallop::area_lengths_answer(profile, longer, &mut [0; 2]);
        assert_eq!(answer, Answer(1), "{form:?}");
    }
}

/// The log is 2^32 bytes longer than an empty one.
#[test]
fn logs_of_2_to_the_32_bytes() {
    let log = vec![0; TWO_TO_THE_32];
    for form in FORMS {
        let Image {
            sheet,
            heap,
            records,
            ..
        } = dump(form);
        let (rows, chain, output) = (&mut [0; 9], &mut [0; 3], &mut [0; 64]);
        let p = expected_profile(form.profile());
        let answers = [
            combgallop::survey_answer(p, &sheet, &heap, &records, &[], &log, rows, chain),
            combgallop::latest_answer(p, &sheet, &heap, &records, &log, 1, 2),
            combgallop::report_answer(p, &sheet, &heap, &records, &[], &log, output),
        ];
        assert_eq!(answers, [Answer(3); 3], "{form:?}");
    }
}

/// Room for 2^32 bytes is enough.
#[test]
fn output_of_2_to_the_32_bytes() {
    let mut output = vec![0; TWO_TO_THE_32];
    for form in FORMS {
        let Image {
            sheet,
            heap,
            records,
            ..
        } = dump(form);
        let profile = expected_profile(form.profile());
        let output = &mut output;
        let answer = combgallop::report_answer(profile, &sheet, &heap, &records, &[], &[], output);
        assert_eq!(answer, Answer(64 << 32), "{form:?}");
    }
}
