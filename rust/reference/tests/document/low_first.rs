//! Kernel images with the low byte first, every expected byte written out.

use crate::image::*;
use crate::made::text;
use reference::*;

/// Where the records start in their area.
const RECORD: [usize; 3] = [0, 96, 192];

/// The dump with its words turned. The guard of buffer 1 is the byte bb at offset 20
/// of its chunk, before three bytes of the fill fe ca dd ba.
#[rustfmt::skip]
const LOW_HEAP: [u8; 120] = [
    0xef, 0xbe, 0xad, 0xde, 0xef, 0xbe, 0xad, 0xde, 0xef, 0xbe, 0xad, 0xde,
    0xef, 0xbe, 0xad, 0xde, 0xef, 0xbe, 0xad, 0xde, 0xef, 0xbe, 0xad, 0xde,
    0xce, 0xfa, 0xed, 0xfe, 0xce, 0xfa, 0xed, 0xfe,
    0x60, 0x32, 0xae, 0x70, 0x8e, 0xc6, 0x40, 0x84,
    0x05, 0x00, 0x00, 0x00, 0x83, 0xef, 0x04, 0x00, 0x00, 0x00, 0x00, 0x00,
    0x00, 0x00, 0x00, 0x00, 0x01, 0x00, 0x00, 0x00, 0xbb, 0xca, 0xdd, 0xba,
    0xce, 0xfa, 0xed, 0xfe, 0x9d, 0x13, 0x00, 0x00,
    0x00, 0x32, 0xae, 0x70, 0xed, 0xfa, 0xbe, 0xd1,
    0xef, 0xbe, 0xad, 0xde, 0xef, 0xbe, 0xad, 0xde, 0xef, 0xbe, 0xad, 0xde,
    0xef, 0xbe, 0xad, 0xde, 0xef, 0xbe, 0xad, 0xde, 0xef, 0xbe, 0xad, 0xde,
    0xce, 0xfa, 0xed, 0xfe, 0xce, 0xfa, 0xed, 0xfe,
    0xa0, 0x31, 0xae, 0x70, 0x4e, 0xc5, 0x40, 0x84,
];

/// The first 28 bytes of each record: next, address, slab, cache, timestamp, thread.
#[rustfmt::skip]
const LOW_RECORDS: [[u8; 28]; 3] = [
    [
        0x00, 0x00, 0x00, 0x00, 0x28, 0xae, 0xa9, 0x70, 0x00, 0xfe, 0xa9, 0x70,
        0x28, 0x99, 0x03, 0x70, 0x00, 0x0a, 0x00, 0x00, 0x00, 0x00, 0x00, 0x00,
        0x00, 0xa0, 0x04, 0x70,
    ],
    [
        0xa0, 0x31, 0xae, 0x70, 0x00, 0xae, 0xa9, 0x70, 0x00, 0xfe, 0xa9, 0x70,
        0x28, 0x99, 0x03, 0x70, 0x00, 0x0b, 0x00, 0x00, 0x00, 0x00, 0x00, 0x00,
        0x00, 0xb0, 0x04, 0x70,
    ],
    [
        0xa0, 0x31, 0xae, 0x70, 0xd8, 0xad, 0xa9, 0x70, 0x00, 0xfe, 0xa9, 0x70,
        0x28, 0x99, 0x03, 0x70, 0x00, 0x0c, 0x00, 0x00, 0x00, 0x00, 0x00, 0x00,
        0x00, 0xc0, 0x04, 0x70,
    ],
];

/// The chunk that a grant of the dump's head, record 2, leaves in the low order.
/// 0x70ae3260 xor 0xa110c8ed = 0xd1befa8d.
fn granted_chunk(grant: Grant) -> Vec<u8> {
    let mut image = dump(Form::Low);
    let answer = allocate(
        Profile::Kernel,
        &mut image.sheet,
        &mut image.heap,
        &mut image.records,
        grant,
        UPTIME,
        THREAD_WORD,
    );
    assert_eq!(answer, Ok(BUFFER_0));
    assert_eq!(
        image.heap[T0..][..8],
        [0x60, 0x32, 0xae, 0x70, 0x8d, 0xfa, 0xbe, 0xd1]
    );
    image.heap[..40].to_vec()
}

#[test]
fn dump_byte_for_byte() {
    let image = dump(Form::Low);
    assert_eq!(image.heap, LOW_HEAP);
    for (record, first) in RECORD.into_iter().zip(LOW_RECORDS) {
        assert_eq!(image.records[record..][..28], first);
    }
}

#[test]
fn dump_has_the_same_report_of_64_bytes() {
    let mut records = vec![0; 288];
    for (record, first) in RECORD.into_iter().zip(LOW_RECORDS) {
        records[record..][..28].copy_from_slice(&first);
    }
    let sheet = dump(Form::Low).sheet;
    let text = report_text(Profile::Kernel, &sheet, &LOW_HEAP, &records, &[], &[]).unwrap();
    assert_eq!(text, DUMP_REPORT);
    assert_eq!(text.len(), 64);
}

#[test]
fn guard_turned_with_its_word_is_missed_at_its_offset() {
    // The word 0xbbddcafe with the low byte first has bb at 23 and fe at 20.
    let mut image = dump(Form::Low);
    image.heap[CHUNK[1] + 20..][..4].copy_from_slice(&[0xfe, 0xca, 0xdd, 0xbb]);
    assert_eq!(
        text(&image),
        "heap report 1\n0 free\n1 fault 28 20\n2 free\nchain 2 end\nfaults 1\n"
    );
}

#[test]
fn fill_of_the_other_order() {
    // de and ef differ at once; so do fe and ce.
    let mut image = dump(Form::Low);
    image.heap[..4].copy_from_slice(&[0xde, 0xad, 0xbe, 0xef]);
    image.heap[CHUNK[2] + R1..][..4].copy_from_slice(&[0xfe, 0xed, 0xfa, 0xce]);
    assert_eq!(
        text(&image),
        "heap report 1\n0 fault 25 0\n1 allocated 20\n2 fault 26 28\nchain 2 end\nfaults 2\n"
    );
}

#[test]
fn grant_of_20_bytes() {
    let chunk = granted_chunk(Grant::Sized(20));
    assert_eq!(chunk[..20], [0xfe, 0xca, 0xdd, 0xba].repeat(5));
    assert_eq!(chunk[20..24], [0xbb, 0xca, 0xdd, 0xba]);
    assert_eq!(chunk[R0..][..8], [0xce, 0xfa, 0xed, 0xfe, 0x9d, 0x13, 0, 0]);
}

#[test]
fn grants_of_1_to_4_bytes() {
    // 251 * s + 1 is 0xfc, 0x1f7, 0x2f2 and 0x3ed.
    #[rustfmt::skip]
    let cases = [
        (1, [0xfe, 0xbb, 0xdd, 0xba, 0xfe, 0xca, 0xdd, 0xba], [0xfc, 0x00, 0, 0]),
        (2, [0xfe, 0xca, 0xbb, 0xba, 0xfe, 0xca, 0xdd, 0xba], [0xf7, 0x01, 0, 0]),
        (3, [0xfe, 0xca, 0xdd, 0xbb, 0xfe, 0xca, 0xdd, 0xba], [0xf2, 0x02, 0, 0]),
        (4, [0xfe, 0xca, 0xdd, 0xba, 0xbb, 0xca, 0xdd, 0xba], [0xed, 0x03, 0, 0]),
    ];
    for (size, first, r1) in cases {
        let chunk = granted_chunk(Grant::Sized(size));
        assert_eq!(chunk[..8], first);
        assert_eq!(chunk[8..24], [0xfe, 0xca, 0xdd, 0xba].repeat(4));
        assert_eq!(chunk[R0..][..4], [0xce, 0xfa, 0xed, 0xfe]);
        assert_eq!(chunk[R1..][..4], r1);
    }
}

#[test]
fn full_size_grants_r0_reads_feedfabb() {
    let chunk = granted_chunk(Grant::Sized(24));
    assert_eq!(chunk[..24], [0xfe, 0xca, 0xdd, 0xba].repeat(6));
    assert_eq!(chunk[R0..][..4], [0xbb, 0xfa, 0xed, 0xfe]);
    assert_eq!(chunk[R0..][..4], 0xfeed_fabb_u32.to_le_bytes());
    assert_eq!(chunk[R1..][..4], [0x89, 0x17, 0, 0]);
}

#[test]
fn whole_grant() {
    let chunk = granted_chunk(Grant::Whole);
    assert_eq!(chunk[..24], [0xfe, 0xca, 0xdd, 0xba].repeat(6));
    assert_eq!(chunk[R0..][..8], [0xce, 0xfa, 0xed, 0xfe].repeat(2));
}

#[test]
fn allocate_writes_stamp_and_thread_low_and_head_high() {
    let mut image = dump(Form::Low);
    let mut expected = dump(Form::Low);
    #[rustfmt::skip]
    let stamp_and_thread = [
        0x44, 0x33, 0x22, 0x11, 0x00, 0x00, 0x00, 0x00,
        0x88, 0x77, 0x66, 0x55,
    ];
    expected.records[RECORD[2] + 16..][..12].copy_from_slice(&stamp_and_thread);
    expected.sheet[39..43].copy_from_slice(&[0x70, 0xae, 0x31, 0xa0]);
    let answer = allocate(
        Profile::Kernel,
        &mut image.sheet,
        &mut image.heap,
        &mut image.records,
        Grant::Whole,
        0x1122_3344,
        0x5566_7788,
    );
    assert_eq!(answer, Ok(BUFFER_0));
    assert_eq!(image.records, expected.records);
    assert_eq!(image.sheet, expected.sheet);
}

#[test]
fn free_writes_every_word_low_and_head_high() {
    let mut image = dump(Form::Low);
    let mut expected = dump(Form::Low);
    // 0x70ae3200 xor 0xf4eef4ee = 0x8440c6ee.
    #[rustfmt::skip]
    let chunk = [
        0xef, 0xbe, 0xad, 0xde, 0xef, 0xbe, 0xad, 0xde, 0xef, 0xbe, 0xad, 0xde,
        0xef, 0xbe, 0xad, 0xde, 0xef, 0xbe, 0xad, 0xde, 0xef, 0xbe, 0xad, 0xde,
        0xce, 0xfa, 0xed, 0xfe, 0xce, 0xfa, 0xed, 0xfe,
        0x00, 0x32, 0xae, 0x70, 0xee, 0xc6, 0x40, 0x84,
    ];
    #[rustfmt::skip]
    let stamp_and_thread = [
        0x44, 0x33, 0x22, 0x11, 0x00, 0x00, 0x00, 0x00,
        0x88, 0x77, 0x66, 0x55,
    ];
    expected.heap[40..80].copy_from_slice(&chunk);
    expected.records[RECORD[1]..][..4].copy_from_slice(&[0x60, 0x32, 0xae, 0x70]);
    expected.records[RECORD[1] + 16..][..12].copy_from_slice(&stamp_and_thread);
    expected.sheet[39..43].copy_from_slice(&[0x70, 0xae, 0x32, 0x00]);
    let answer = free(
        Profile::Kernel,
        &mut image.sheet,
        &mut image.heap,
        &mut image.records,
        BUFFER_1,
        Grant::Sized(20),
        0x1122_3344,
        0x5566_7788,
    );
    assert_eq!(answer, Ok(()));
    assert_eq!(image, expected);
}

/// P11 with the bytes of its rows: at 0x10 the stamps 0xfffffff0 and 8 have the ages
/// 32 and 8.
#[test]
fn log_rows() {
    let image = dump(Form::Low);
    #[rustfmt::skip]
    let log = [
        0x60, 0x32, 0xae, 0x70, 0x08, 0x00, 0x00, 0x00, 0x01, 0, 0, 0, 0x01, 0, 0, 0,
        0x60, 0x32, 0xae, 0x70, 0xf0, 0xff, 0xff, 0xff, 0x01, 0, 0, 0, 0x02, 0, 0, 0,
        0x70, 0xae, 0x32, 0x60, 0x10, 0x00, 0x00, 0x00, 0x01, 0, 0, 0, 0x01, 0, 0, 0,
    ];
    let answer = latest(
        Profile::Kernel,
        &image.sheet,
        &image.heap,
        &image.records,
        &log,
        0,
        0x10,
    );
    assert_eq!(answer, Ok(Latest::Row(0)));
    let answer = latest(
        Profile::Kernel,
        &image.sheet,
        &image.heap,
        &image.records,
        &log[16..],
        0,
        0x10,
    );
    assert_eq!(answer, Ok(Latest::Row(0)));
    let answer = latest(
        Profile::Kernel,
        &image.sheet,
        &image.heap,
        &image.records,
        &log[32..],
        0,
        0x10,
    );
    assert_eq!(answer, Ok(Latest::Record(2)));
}

/// "One of 48 bytes means 0": the same calls on a short sheet and on one whose tag 9
/// is 0 leave the same bytes, and the sheets agree in their first 48.
#[test]
fn both_forms_of_the_high_order_agree() {
    let [mut short, mut long] = [dump(Form::Short), dump(Form::High)];
    for image in [&mut short, &mut long] {
        let Image {
            sheet,
            heap,
            records,
            ..
        } = image;
        let answer = allocate(
            Profile::Kernel,
            sheet,
            heap,
            records,
            Grant::Sized(24),
            UPTIME,
            THREAD_WORD,
        );
        assert_eq!(answer, Ok(BUFFER_0));
        let answer = free(
            Profile::Kernel,
            sheet,
            heap,
            records,
            BUFFER_1,
            Grant::Sized(20),
            1,
            2,
        );
        assert_eq!(answer, Ok(()));
    }
    assert_eq!(short.heap, long.heap);
    assert_eq!(short.records, long.records);
    assert_eq!(short.sheet, long.sheet[..48]);
    assert_eq!(long.sheet[48..], [9, 0, 1, 0]);
    assert_eq!(short.sheet[39..43], [0x70, 0xae, 0x32, 0x00]);
}
