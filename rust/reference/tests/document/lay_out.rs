//! Lay out: the bytes it writes and what it refuses, under both profiles.

use crate::image::{refused, Form, Image, FORMS, LONG_FORMS};
use reference::{lay_out, sheet_order, Refusal};

/// Lays out over areas full of 0x5a, with the answer.
fn laid(
    form: Form,
    numbers: [u32; 5],
    sheet_length: usize,
    heap_length: usize,
    record_length: usize,
) -> (Image, Result<(), Refusal>) {
    let mut image = Image {
        form,
        sheet: vec![0x5a; sheet_length],
        heap: vec![0x5a; heap_length],
        records: vec![0x5a; record_length],
    };
    let [cache, heap_base, record_base, size, count] = numbers;
    let answer = lay_out(
        form.profile(),
        form.order(),
        cache,
        heap_base,
        record_base,
        size,
        count,
        &mut image.sheet,
        &mut image.heap,
        &mut image.records,
    );
    (image, answer)
}

/// Expects a refusal that leaves every byte.
fn refuses_in(form: Form, numbers: [u32; 5], lengths: [usize; 3], number: u8) {
    let (image, answer) = laid(form, numbers, lengths[0], lengths[1], lengths[2]);
    assert_eq!(answer, refused(number), "{form:?} {numbers:x?} {lengths:?}");
    let bytes = [image.sheet, image.heap, image.records].concat();
    assert!(bytes.iter().all(|byte| *byte == 0x5a));
}

/// Expects a refusal in either order, under both profiles, of three records.
fn refuses(numbers: [u32; 5], sheet_length: usize, heap_length: usize, number: u8) {
    for form in FORMS {
        let lengths = [sheet_length, heap_length, form.record_length()];
        refuses_in(form, numbers, lengths, number);
    }
}

const DUMP: [u32; 5] = [0x70039928, 0x70a9add8, 0x70ae31a0, 24, 3];

#[test]
fn three_buffers_of_8_byte_for_byte() {
    for form in LONG_FORMS {
        let length = form.record_length();
        let (image, answer) = laid(form, [0x11223344, 0x1000, 0x2000, 8, 3], 52, 72, length);
        assert_eq!(answer, Ok(()));
        #[rustfmt::skip]
        let sheet = [
            1, 0, 4, 0x11, 0x22, 0x33, 0x44,
            2, 0, 4, 0, 0, 0x10, 0,
            3, 0, 4, 0, 0, 0x20, 0,
            4, 0, 2, 0, 8,
            5, 0, 2, 0, 24,
            6, 0, 2, 0, 3,
            7, 0, 4, 0, 0, 0x20, 0,
            8, 0, 2, 2, 0x0f,
            9, 0, 1, form.pick(0, 1),
        ];
        assert_eq!(image.sheet, sheet);
        // Records are 96 or 100 bytes apart, 0x60 or 0x64.
        let kernel = [0x2060, 0xf4eed48e, 0x20c0, 0xf4eed42e];
        let userland = [0x2064, 0xf4eed48a, 0x20c8, 0xf4eed426];
        let [second, second_tag, third, third_tag] = form.of(kernel, userland);
        #[rustfmt::skip]
        let heap = form.words(&[
            0xdeadbeef, 0xdeadbeef, 0xfeedface, 0xfeedface, 0x00002000, 0xf4eed4ee,
            0xdeadbeef, 0xdeadbeef, 0xfeedface, 0xfeedface, second, second_tag,
            0xdeadbeef, 0xdeadbeef, 0xfeedface, 0xfeedface, third, third_tag,
        ]);
        assert_eq!(image.heap, heap);
        let words = form.of(24, 25);
        let mut records = vec![0; 3 * words];
        records[..4].copy_from_slice(&[second, 0x1000, 0, 0x11223344]);
        records[words..][..4].copy_from_slice(&[third, 0x1018, 0, 0x11223344]);
        records[2 * words..][..4].copy_from_slice(&[0, 0x1030, 0, 0x11223344]);
        assert_eq!(image.records, form.words(&records));
        assert_eq!(sheet_order(&image.sheet), Ok(form.order()));
    }
}

/// The first chunk and the first record of two, byte for byte with the low byte first.
#[test]
fn two_buffers_of_8_with_the_low_byte_first() {
    let (image, answer) = laid(Form::Low, [0x11223344, 0x1000, 0x2000, 8, 2], 52, 48, 192);
    assert_eq!(answer, Ok(()));
    // 0x2000 xor 0xf4eef4ee = 0xf4eed4ee.
    #[rustfmt::skip]
    let chunk = [
        0xef, 0xbe, 0xad, 0xde, 0xef, 0xbe, 0xad, 0xde,
        0xce, 0xfa, 0xed, 0xfe, 0xce, 0xfa, 0xed, 0xfe,
        0x00, 0x20, 0x00, 0x00, 0xee, 0xd4, 0xee, 0xf4,
    ];
    assert_eq!(image.heap[..24], chunk);
    #[rustfmt::skip]
    let record = [
        0x60, 0x20, 0x00, 0x00, 0x00, 0x10, 0x00, 0x00,
        0x00, 0x00, 0x00, 0x00, 0x44, 0x33, 0x22, 0x11,
    ];
    assert_eq!(image.records[..16], record);
    assert_eq!(image.records[16..96], [0; 80]);
    // The head in the sheet stays big-endian.
    assert_eq!(image.sheet[36..43], [7, 0, 4, 0, 0, 0x20, 0]);
}

#[test]
fn areas_that_end_at_2_to_the_32() {
    for form in LONG_FORMS {
        let length = form.record_length();
        let (_, heap_last) = laid(form, [0, 0xffff_ff88, 8, 24, 3], 52, 120, length);
        assert_eq!(heap_last, Ok(()));
        // 2^32 - 288, and the last multiple of 8 that is no more than 2^32 - 300.
        let last = form.of(0xffff_fee0, 0xffff_fed0);
        let (_, records_last) = laid(form, [0, 8, last, 24, 3], 52, 120, length);
        assert_eq!(records_last, Ok(()));
        refuses_in(form, [0, 8, last + 8, 24, 3], [52, 120, length], 2);
        // Two records of 100 bytes are a multiple of 8: 2^32 - 192 and 2^32 - 200.
        let last = form.of(0xffff_ff40, 0xffff_ff38);
        let length = form.of(192, 200);
        let (_, records_last) = laid(form, [0, 8, last, 24, 2], 52, 80, length);
        assert_eq!(records_last, Ok(()));
        refuses_in(form, [0, 8, last + 8, 24, 2], [52, 80, length], 2);
    }
    refuses([0, 0xffff_ff90, 8, 24, 3], 52, 120, 2);
}

/// 0x2000 + 192 = 0x20c0 and 0x2000 + 200 = 0x20c8.
#[test]
fn heap_that_starts_where_the_records_end() {
    for form in LONG_FORMS {
        let length = form.of(192, 200);
        let end = form.of(0x20c0, 0x20c8);
        let (_, answer) = laid(form, [0, end, 0x2000, 24, 2], 52, 80, length);
        assert_eq!(answer, Ok(()));
        refuses_in(form, [0, end - 8, 0x2000, 24, 2], [52, 80, length], 2);
    }
}

#[test]
fn refusal_1_by_the_sheet_areas_length() {
    for length in [0, 47, 48, 49, 51, 53, 104] {
        refuses(DUMP, length, 120, 1);
        refuses([0; 5], length, 0, 1);
    }
}

#[test]
fn refusal_2_on_arguments() {
    let with = |place: usize, number: u32| {
        let mut numbers = DUMP;
        numbers[place] = number;
        numbers
    };
    for base in [0, 4, 0x70a9addc, 0xffff_fff8] {
        refuses(with(1, base), 52, 120, 2);
        refuses(with(2, base), 52, 120, 2);
    }
    for size in [0, 4, 25, 4104, 0x1_0018, 0xffff_fff0, 0xffff_fff8, u32::MAX] {
        refuses(with(3, size), 52, 120, 2);
    }
    for count in [0, 513, 0x1_0003, 0x8000_0003, u32::MAX] {
        refuses(with(4, count), 52, 120, 2);
    }
    // 482 chunks of 136 bytes are 65,552 bytes; the two bases are equal.
    let too_many = [0, 0x10_0000, 0x20_0000, 120, 482];
    for form in FORMS {
        refuses_in(form, too_many, [52, 65_552, form.of(46_272, 48_200)], 2);
    }
    refuses(with(1, 0x70ae31a0), 52, 120, 2);
}

#[test]
fn refusal_2_comes_before_3() {
    refuses([0; 5], 52, 1, 2);
}

#[test]
fn refusal_3_on_areas_of_wrong_length() {
    for form in FORMS {
        let length = form.record_length();
        for (heap_length, record_length) in [
            (119, length),
            (121, length),
            (120, length - 1),
            (120, length + 1),
            (120, form.of(300, 288)),
            (0, 0),
        ] {
            refuses_in(form, DUMP, [52, heap_length, record_length], 3);
        }
    }
}
