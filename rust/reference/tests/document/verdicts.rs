//! Verdicts 0 to 28 with an empty magazine list, and the checks P1 to P10 (P6 is 31 and
//! P8 is 32), in both orders and under both profiles.

use crate::image::*;
use crate::made::*;
use reference::{CodeHurt, Finding, Verdict};

/// The dump with one word of its heap changed.
fn dump_with_heap_word(form: Form, at: usize, word: u32) -> Image {
    let mut image = dump(form);
    image.put_heap(at, word);
    image
}

/// The verdict on the dump's buffer 1, of the allocated pattern, with these redzone
/// words.
fn allocated_with(form: Form, r0: u32, r1: u32) -> (u32, u32) {
    verdicts(&dump_with_redzone(form, r0, r1))[1]
}

#[test]
fn dump_has_free_allocated_20_free() {
    for form in FORMS {
        assert_eq!(
            verdicts(&dump(form)),
            [(0, 0), (2, dump_size(form)), (0, 0)]
        );
    }
}

#[test]
fn p1_free_pattern() {
    for form in FORMS {
        let image = dump(form);
        assert_eq!(
            image.heap[CHUNK[0] + T0..][..8],
            form.words(&form.of([0x70ae3260, 0x8440c68e], [0x70ae3268, 0x8440c686]))
        );
        assert_eq!(verdicts(&image)[0], (0, 0));
    }
}

#[test]
fn p2_allocated_pattern() {
    for form in FORMS {
        let image = dump(form);
        assert_eq!(
            image.heap[CHUNK[1] + T0..][..8],
            form.words(&form.of([0x70ae3200, 0xd1befaed], [0x70ae3204, 0xd1befae9]))
        );
        assert_eq!(verdicts(&image)[1], (2, dump_size(form)));
    }
}

#[test]
fn p3_neither_pattern() {
    for form in FORMS {
        let image = dump_with_heap_word(form, CHUNK[0] + T1, form.of(0x8440c68f, 0x8440c687));
        assert_eq!(verdicts(&image), [(21, 0), (2, dump_size(form)), (0, 0)]);
    }
}

#[test]
fn p4_to_p9_redzone_words_of_the_allocated_pattern() {
    for form in FORMS {
        assert_eq!(
            allocated_with(form, 0xfeedface, 0x139d),
            (2, dump_size(form)),
            "P4"
        );
        assert_eq!(allocated_with(form, 0xfeedface, 0x139e), (27, 0), "P5");
        assert_eq!(allocated_with(form, 0xfeedface, 1), (31, 0), "P6");
        assert_eq!(verdicts(&dump_full(form))[1], (2, full_size(form)), "P7");
        assert_eq!(allocated_with(form, 0xfeedface, 0x1884), (32, 0), "P8");
        // The word's high byte stands at 24 or, where the low byte stands first, at 27.
        let p9 = allocated_with(form, 0x00edface, 0xfeedface);
        assert_eq!(p9, (28, form.pick(24, 27)), "P9");
    }
}

#[test]
fn p10_byte_9_of_a_free_buffer() {
    for form in FORMS {
        let mut image = dump(form);
        image.heap[CHUNK[0] + 9] = 0;
        assert_eq!(verdicts(&image), [(25, 9), (2, dump_size(form)), (0, 0)]);
    }
}

#[test]
fn verdict_1_whole() {
    for form in FORMS {
        assert_eq!(allocated_with(form, 0xfeedface, 0xfeedface), (1, 0));
    }
}

#[test]
fn verdict_2_smallest_size() {
    for form in KERNEL_FORMS {
        // 251 * 1 + 1 = 252 = 0xfc.
        let mut image = dump_with_heap_word(form, CHUNK[1] + R1, 0xfc);
        image.heap[CHUNK[1] + 1] = 0xbb;
        assert_eq!(verdicts(&image)[1], (2, 1));
    }
}

#[test]
fn verdict_20_no_record_names_the_buffer() {
    for form in FORMS {
        for address in [0, BUFFER_2 + 4, BUFFER_2 + 40, BUFFER_0 - 40] {
            let mut image = dump(form);
            image.put_record(form.place(0) + ADDRESS, address);
            assert_eq!(verdicts(&image), [(0, 0), (2, dump_size(form)), (20, 0)]);
        }
    }
}

#[test]
fn verdict_20_two_records_name_the_buffer() {
    for form in FORMS {
        let mut image = dump(form);
        image.put_record(form.place(0) + ADDRESS, BUFFER_1);
        assert_eq!(verdicts(&image), [(0, 0), (20, 0), (20, 0)]);
    }
}

#[test]
fn verdict_20_three_records_name_the_buffer() {
    for form in FORMS {
        let mut image = dump(form);
        image.put_record(form.place(0) + ADDRESS, BUFFER_0);
        image.put_record(form.place(1) + ADDRESS, BUFFER_0);
        assert_eq!(verdicts(&image), [(20, 0), (20, 0), (20, 0)]);
    }
}

#[test]
fn verdict_21_sound_pattern_on_another_record() {
    for form in FORMS {
        // 0x70ae3200 xor 0xf4eef4ee = 0x8440c6ee; 0x70ae3204 xor 0xf4eef4ee = 0x8440c6ea.
        let mut image = dump(form);
        image.put_heap(CHUNK[0] + T0, form.record(1));
        image.put_heap(CHUNK[0] + T1, form.of(0x8440c6ee, 0x8440c6ea));
        assert_eq!(verdicts(&image), [(21, 0), (2, dump_size(form)), (0, 0)]);
    }
}

#[test]
fn verdict_22_free_pattern() {
    for form in FORMS {
        let mut image = dump(form);
        image.put_record(form.place(0) + NEXT, form.record(2));
        assert_eq!(verdicts(&image), [(22, 0), (2, dump_size(form)), (0, 0)]);
    }
}

#[test]
fn verdict_22_comes_before_24_and_25() {
    for form in FORMS {
        let mut image = dump_with_head(form, form.record(1));
        image.put_record(form.place(1) + NEXT, form.record(1));
        assert_eq!(verdicts(&image), [(23, 0), (22, 0), (23, 0)]);

        let mut image = dump(form);
        image.put_record(form.place(0) + NEXT, form.record(2));
        image.heap[CHUNK[0]] = 0;
        assert_eq!(verdicts(&image)[0], (22, 0));
    }
}

#[test]
fn verdict_21_comes_before_22() {
    for form in FORMS {
        let mut image = dump_with_heap_word(form, CHUNK[0] + T1, form.of(0x8440c68f, 0x8440c687));
        image.put_record(form.place(0) + NEXT, form.record(2));
        assert_eq!(verdicts(&image)[0], (21, 0));
    }
}

#[test]
fn verdict_20_comes_before_21_and_22() {
    for form in FORMS {
        let mut image = dump_with_heap_word(form, CHUNK[0] + T1, 0);
        image.put_record(form.place(2) + ADDRESS, 0);
        image.put_record(form.place(0) + NEXT, form.record(2));
        assert_eq!(verdicts(&image)[0], (20, 0));
    }
}

#[test]
fn verdict_23_free_pattern_not_met() {
    for form in FORMS {
        let mut image = dump_with_head(form, form.record(0));
        assert_eq!(verdicts(&image), [(23, 0), (2, dump_size(form)), (0, 0)]);
        image.heap[CHUNK[0]] = 0;
        assert_eq!(verdicts(&image)[0], (23, 0), "before 25");
    }
}

#[test]
fn verdict_24_allocated_pattern_met() {
    for form in FORMS {
        let mut image = dump_with_head(form, form.record(1));
        assert_eq!(verdicts(&image), [(23, 0), (24, 0), (0, 0)]);
        image.put_heap(CHUNK[1] + R1, 0);
        assert_eq!(verdicts(&image)[1], (24, 0), "before 27");
    }
}

#[test]
fn verdict_25_first_differing_byte_of_the_fill() {
    for form in FORMS {
        for offset in [0, 23] {
            let mut image = dump(form);
            image.heap[CHUNK[2] + offset] ^= 1;
            image.heap[CHUNK[2] + 23] ^= 2;
            image.heap[CHUNK[2] + R0] = 0;
            assert_eq!(verdicts(&image)[2], (25, offset as u32), "before 26");
        }
    }
}

#[test]
fn verdict_26_first_differing_byte_of_the_redzone() {
    for form in FORMS {
        for offset in [24, 27, 28, 29, 31] {
            let mut image = dump(form);
            image.heap[CHUNK[2] + offset] ^= 1;
            assert_eq!(verdicts(&image)[2], (26, offset as u32));
            image.heap[CHUNK[2] + 31] ^= 2;
            assert_eq!(verdicts(&image)[2], (26, offset as u32));
        }
    }
}

#[test]
fn verdict_26_free_pattern_with_a_size_code() {
    for form in FORMS {
        // No byte of 00 00 13 9d or 9d 13 00 00 is right.
        let image = dump_with_heap_word(form, CHUNK[0] + R1, 0x139d);
        assert_eq!(verdicts(&image)[0], (26, 28));
    }
}

#[test]
fn verdict_27_codes_of_no_size() {
    for form in FORMS {
        // 251 = 0xfb has remainder 0 and 253 = 0xfd has 2. The last two are the size code
        // 0x139d and the redzone word 0xfeedface the other way round, of remainders 20
        // and 56.
        for r1 in [0, 0xfb, 0xfd, 0xfeed_facf, 0x9d13_0000, 0xcefa_edfe] {
            assert_eq!(allocated_with(form, 0xfeedface, r1), (27, 0));
        }
    }
}

#[test]
fn verdict_27_comes_before_28() {
    for form in FORMS {
        assert_eq!(allocated_with(form, 0, 0x139e), (27, 0));
    }
}

#[test]
fn verdict_28_guard_byte() {
    for form in FORMS {
        let mut image = dump(form);
        image.heap[CHUNK[1] + 20] = 0xba;
        image.heap[CHUNK[1] + R0] = 0;
        assert_eq!(verdicts(&image), [(0, 0), (28, 20), (0, 0)]);
    }
}

#[test]
fn verdict_28_redzone_after_a_sound_guard() {
    for form in FORMS {
        let offset = |high, low| (28, form.pick(high, low));
        assert_eq!(allocated_with(form, 0xfeecface, 0x139d), offset(25, 26));
        assert_eq!(allocated_with(form, 0xbbedface, 0x139d), offset(24, 27));
        assert_eq!(allocated_with(form, 0xfeedfabb, 0x139d), offset(27, 24));
        assert_eq!(allocated_with(form, 0xfeedfacf, 0x139d), offset(27, 24));
        assert_eq!(allocated_with(form, 0xfeecfbce, 0x139d), offset(25, 25));
    }
}

#[test]
fn verdict_28_full_size_grant() {
    for form in FORMS {
        assert_eq!(allocated_with(form, 0xfeedface, 0x1789), (28, 24));
        // The full-size word of the other order has no bb at 24.
        let other = form.pick(0xfeedfabb, 0xbbedface);
        assert_eq!(allocated_with(form, other, 0x1789), (28, 24));
        // Bytes bb ed fb cf and bb fa ee ff.
        let third_byte = form.pick(0xbbedfbcf, 0xffeefabb);
        assert_eq!(allocated_with(form, third_byte, 0x1789), (28, 26));
    }
}

#[test]
fn verdict_28_whole_grant() {
    for form in FORMS {
        let offset = |high, low| (28, form.pick(high, low));
        assert_eq!(allocated_with(form, 0xbbedface, 0xfeedface), offset(24, 27));
        assert_eq!(allocated_with(form, 0xfeedfabb, 0xfeedface), offset(27, 24));
        assert_eq!(allocated_with(form, 0xfeedfa00, 0xfeedface), offset(27, 24));
    }
}

#[test]
fn bytes_between_guard_and_redzone_are_not_judged() {
    for form in FORMS {
        let mut image = dump(form);
        image.heap[CHUNK[1] + 21..CHUNK[1] + 24].fill(0);
        assert_eq!(verdicts(&image)[1], (2, dump_size(form)));
    }
}

#[test]
fn client_that_stores_the_free_fill_is_still_allocated() {
    for form in FORMS {
        let mut image = dump(form);
        let client = CHUNK[1] + form.of(0, 8)..CHUNK[1] + 20;
        let fill = form.words(&[0xdeadbeef; 5]);
        image.heap[client].copy_from_slice(&fill[form.of(0, 8)..]);
        assert_eq!(verdicts(&image)[1], (2, dump_size(form)));
    }
}

/// What stands in a row that no call may touch.
const KEPT: Finding = Finding {
    index: 77,
    verdict: Verdict::BadSizeCode(CodeHurt::AboveBufferSize),
};

#[test]
fn rows_past_n_stay() {
    for form in FORMS {
        let image = dump(form);
        let mut rows = [KEPT; 5];
        let answer = inspected(&image, &[], &mut rows);
        assert_eq!(answer, Ok(3));
        assert_eq!(rows[..3], findings_with(&image, &[]));
        assert_eq!(rows[3..], [KEPT; 2]);
    }
}

#[test]
fn refusal_11_rows_shorter_than_n() {
    for form in FORMS {
        let image = dump(form);
        let mut rows = [KEPT; 2];
        let answer = inspected(&image, &[], &mut rows);
        assert_eq!(answer, refused(11));
        assert_eq!(rows, [KEPT; 2]);
    }
}
