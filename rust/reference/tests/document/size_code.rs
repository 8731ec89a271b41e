//! "Say how the size code is bad": verdicts 27, 31 and 32, where they stand among the
//! others, refusal 7 with each of them, and the report, in both orders and under both
//! profiles.

use crate::image::*;
use crate::made::*;
use reference::*;

/// Where the heap of one buffer and its record start.
const HEAP_BASE: u32 = 0x1000;
const RECORD_BASE: u32 = 0x1_0000;

/// One code of each hurt in a buffer of 24, of P5, P6 and P8, with its verdict:
/// 0x139e = 251 * 20 + 2, 1 = 251 * 0 + 1 and 0x1884 = 251 * 25 + 1.
const HURTS: [(u32, u8); 3] = [(0x139e, 27), (1, 31), (0x1884, 32)];

/// A verdict that has neither size nor offset.
fn plain(number: u8) -> (u32, u32) {
    (u32::from(number), 0)
}

/// The dump with this R1 in buffer 1, the rest sound.
fn dump_with_code(form: Form, r1: u32) -> Image {
    dump_with_redzone(form, 0xfeedface, r1)
}

/// A heap of one buffer of this size that is out, with this R1 and no guard.
/// 0x10000 xor 0xa110c8ed = 0xa111c8ed.
fn one_out(form: Form, size: usize, r1: u32) -> Image {
    let mut image = fresh(form, HEAP_BASE, RECORD_BASE, size as u32, 1);
    put_sheet(&mut image.sheet, HEAD, 0);
    image.put_heap(size + 4, r1);
    image.put_heap(size + 12, 0xa111_c8ed);
    image
}

/// The same with the guard of this coded size and, under the userland profile, its header.
fn one_out_sound(form: Form, size: usize, r1: u32, coded_size: usize) -> Image {
    let mut image = one_out(form, size, r1);
    if USER_FORMS.contains(&form) {
        put_header(&mut image, 0, coded_size as u32);
    }
    image.heap[coded_size] = 0xbb;
    image
}

/// Writes "the coded size, then 0x3a10c000 minus the coded size".
fn put_header(image: &mut Image, at: usize, coded_size: u32) {
    image.put_heap(at, coded_size);
    image.put_heap(at + 4, 0x3a10c000 - coded_size);
}

/// Expects one refusal of free, store and show, whatever else they ask for, be it a size
/// or bytes that refusal 9 or 10 would fit, and every byte as before.
fn all_refuse(mut image: Image, address: u32, refusal: Refusal) {
    let before = image.clone();
    for size in [0, 1, 12, 16, 20, 24, 25, u32::MAX] {
        let answer = freed_by(1, &mut image, address, Grant::Sized(size));
        assert_eq!(answer, Err(refusal), "free {size}");
    }
    let answer = freed_by(1, &mut image, address, Grant::Whole);
    assert_eq!(answer, Err(refusal));
    for (offset, length) in [(0, 0), (0, 1), (0, 20), (0, 100), (25, 1), (u32::MAX, 1)] {
        let bytes = vec![0xaa; length];
        let answer = stored(&mut image, address, offset, &bytes);
        assert_eq!(answer, Err(refusal), "store {offset} {length}");
    }
    assert_eq!(shown(&image, address), Err(refusal));
    assert_eq!(image, before);
}

/// Expects this verdict of each of these codes in buffer 1 of the dump, and of its calls.
fn all_are(number: u8, codes: &[u32]) {
    for form in FORMS {
        for &r1 in codes {
            let image = dump_with_code(form, r1);
            assert_eq!(verdict(&image, 1), plain(number), "{r1:x}");
            all_refuse(image, BUFFER_1, damage(number));
        }
    }
}

/// Refusal 7 with its detail.
fn damage(detail: u8) -> Refusal {
    Refusal { number: 7, detail }
}

/// A refusal with detail 0.
fn other(number: u8) -> Refusal {
    Refusal { number, detail: 0 }
}

#[test]
fn number_and_value_of_each_hurt() {
    let hurts = [
        (CodeHurt::WrongRemainder, 27),
        (CodeHurt::SizeZero, 31),
        (CodeHurt::AboveBufferSize, 32),
    ];
    for (hurt, number) in hurts {
        assert_eq!(hurt.number(), number);
        assert_eq!(Verdict::BadSizeCode(hurt).number(), number);
        assert_eq!(Verdict::BadSizeCode(hurt).value(), 0);
    }
}

/// P4 to P8: 0x139d = 251 * 20 + 1 and 0x1789 = 251 * 24 + 1 are good.
#[test]
fn p4_to_p8() {
    for form in FORMS {
        let p4 = verdict(&dump_with_code(form, 0x139d), 1);
        assert_eq!(p4, (2, dump_size(form)), "P4");
        assert_eq!(verdict(&dump_with_code(form, 0x139e), 1), (27, 0), "P5");
        assert_eq!(verdict(&dump_with_code(form, 1), 1), (31, 0), "P6");
        let p7 = verdict(&dump_full(form), 1);
        assert_eq!(p7, (2, full_size(form)), "P7");
        assert_eq!(verdict(&dump_with_code(form, 0x1884), 1), (32, 0), "P8");
    }
}

/// "27 wrong remainder", tried first: of a size of zero, of sizes that are good and of
/// sizes above 24. 0xffffffff is 251 * 17111423 + 122, and 0xfeedface, of a whole grant,
/// is 251 * 17039876 + 226.
#[test]
fn verdict_27_wrong_remainder() {
    let codes = [
        // 251 * 0 with 0, 2, 3 and 250 more.
        0,
        2,
        3,
        250,
        // 251 * 1 with 0, 2 and 250 more.
        251,
        253,
        501,
        // One less and one more than the codes of 20, 24 and 25.
        0x139c,
        0x139e,
        0x1788,
        0x178a,
        0x1883,
        0x1885,
        // One less and one more than 0xfeedface.
        0xfeed_facd,
        0xfeed_facf,
        // 251 * 17111423 with 0, 2 and 122 more.
        0xffff_ff85,
        0xffff_ff87,
        0xffff_ffff,
    ];
    all_are(27, &codes);
}

/// "32 above buffer size with a right remainder", up to the largest word that has it.
/// 251 * 65536 = 0xfb0000, so with one byte or two of the size alone 256, 276, 65536 and
/// 65556 would be 0 or 20.
#[test]
fn verdict_32_above_24() {
    let codes = [
        // 25, 26 and 32.
        0x1884,
        0x197f,
        0x1f61,
        // 256, 276, 4096 and 4097.
        0xfb01,
        0x1_0e9d,
        0xf_b001,
        0xf_b0fc,
        // 65536 and 65556.
        0xfb_0001,
        0xfb_139d,
        // 17039876 and 17039877, the last before and the first after 0xfeedface.
        0xfeed_f9ed,
        0xfeed_fae8,
        // 17111422 and 17111423.
        0xffff_fe8b,
        0xffff_ff86,
    ];
    all_are(32, &codes);
}

/// With no byte 0xbb in the chunk every good code is 28 at its size. The codes of 0, 1, 2
/// and so on are 1 and each 251 more than the one before; all other words are 27.
#[test]
fn every_word_below_0x2100() {
    let mut expected = vec![(27, 0); 0x2100];
    for (size, code) in (0..).zip((1..0x2100).step_by(251)) {
        expected[code] = match size {
            0 => (31, 0),
            1..=24 => (28, size),
            _ => (32, 0),
        };
    }
    assert_eq!(expected[0x1789], (28, 24));
    assert_eq!(expected[0x1884], (32, 0));
    for form in FORMS {
        let mut image = dump(form);
        image.heap[CHUNK[1]..CHUNK[1] + 24].fill(0);
        for (r1, expected) in (0..).zip(&expected) {
            image.put_heap(CHUNK[1] + R1, r1);
            assert_eq!(verdict(&image, 1), *expected, "{r1:x}");
        }
    }
}

/// Of the last 256 words only 251 * 17111423 + 1 has the right remainder.
#[test]
fn every_word_from_0xffffff00() {
    for form in FORMS {
        for r1 in 0xffff_ff00..=0xffff_ffff {
            let expected = if r1 == 0xffff_ff86 { 32 } else { 27 };
            let image = dump_with_code(form, r1);
            assert_eq!(verdict(&image, 1), (expected, 0), "{r1:x}");
        }
    }
}

#[test]
fn r1_of_1_is_31_in_every_buffer_size() {
    for form in LONG_FORMS {
        for size in (8..=4096).step_by(8) {
            assert_eq!(verdict(&one_out(form, size, 1), 0), (31, 0), "{size}");
        }
        for size in [8, 24, 4096] {
            all_refuse(one_out(form, size, 1), HEAP_BASE, damage(31));
        }
    }
}

/// The code of the buffer size, and that of one more: 251 * 8 + 1 = 0x7d9, 251 * 24 + 1 =
/// 0x1789, 251 * 4096 + 1 = 0xfb001, and each 0xfb more.
#[test]
fn codes_next_to_the_buffer_size() {
    let cases = [
        (8, 0x7d9, 0x8d4),
        (24, 0x1789, 0x1884),
        (4096, 0xf_b001, 0xf_b0fc),
    ];
    for form in LONG_FORMS {
        for (size, last, above) in cases {
            let bad = [
                (last - 1, 27),
                (last + 1, 27),
                (above - 1, 27),
                (above, 32),
                (above + 1, 27),
                (0xffff_ff86, 32),
                (0xffff_ffff, 27),
                (0, 27),
                (1, 31),
                (2, 27),
            ];
            for (r1, number) in bad {
                let image = one_out_sound(form, size, r1, size);
                assert_eq!(verdict(&image, 0), plain(number), "{size} {r1:x}");
                all_refuse(image, HEAP_BASE, damage(number));
            }
        }
    }
}

/// The codes of 1 and of the buffer size. A coded size of 1 or 8 leaves no client byte
/// after the header.
#[test]
fn codes_of_1_and_of_the_buffer_size_are_good() {
    let cases = [
        (8, 0xfc, 1, (2, 1), (30, 0)),
        (8, 0x7d9, 8, (2, 8), (30, 0)),
        (24, 0xfc, 1, (2, 1), (30, 0)),
        (24, 0x1789, 24, (2, 24), (2, 16)),
        (4096, 0xfc, 1, (2, 1), (30, 0)),
        (4096, 0xf_b001, 4096, (2, 4096), (2, 4088)),
    ];
    for form in LONG_FORMS {
        for (size, r1, coded_size, kernel, userland) in cases {
            let image = one_out_sound(form, size, r1, coded_size);
            let expected = form.of(kernel, userland);
            assert_eq!(verdict(&image, 0), expected, "{size} {r1:x}");
            // Without the guard it is 28 at the coded size.
            let mut image = image;
            image.heap[coded_size] = 0xba;
            assert_eq!(verdict(&image, 0), (28, coded_size as u32));
        }
    }
}

/// The codes of 9 and 256, 0x8d4 and 0xfb01, above some buffer sizes and not others.
#[test]
fn one_code_in_buffers_of_several_sizes() {
    let cases = [
        (8, 0x8d4, 9, (32, 0), (32, 0)),
        (16, 0x8d4, 9, (2, 9), (2, 1)),
        (4096, 0x8d4, 9, (2, 9), (2, 1)),
        (8, 0xfb01, 256, (32, 0), (32, 0)),
        (248, 0xfb01, 256, (32, 0), (32, 0)),
        (256, 0xfb01, 256, (2, 256), (2, 248)),
        (264, 0xfb01, 256, (2, 256), (2, 248)),
    ];
    for form in LONG_FORMS {
        for (size, r1, coded_size, kernel, userland) in cases {
            // Where the code is above the buffer size, the guard is written nowhere.
            let image = match kernel.0 {
                32 => one_out(form, size, r1),
                _ => one_out_sound(form, size, r1, coded_size),
            };
            let expected = form.of(kernel, userland);
            assert_eq!(verdict(&image, 0), expected, "{size} {r1:x}");
        }
    }
}

/// The codes turned round have wrong remainders: 0x01000000 has 125, 0x84180000 has 32,
/// 0x9e130000 has 145 and 0x86ffffff has 57.
#[test]
fn r1_is_read_in_the_images_order() {
    let cases = [
        ([0x00, 0x00, 0x00, 0x01], 31, 27),
        ([0x01, 0x00, 0x00, 0x00], 27, 31),
        ([0x00, 0x00, 0x18, 0x84], 32, 27),
        ([0x84, 0x18, 0x00, 0x00], 27, 32),
        ([0x00, 0x00, 0x13, 0x9e], 27, 27),
        ([0x9e, 0x13, 0x00, 0x00], 27, 27),
        ([0xff, 0xff, 0xff, 0x86], 32, 27),
        ([0x86, 0xff, 0xff, 0xff], 27, 32),
    ];
    for form in FORMS {
        for (bytes, high, low) in cases {
            let mut image = dump(form);
            image.heap[CHUNK[1] + R1..][..4].copy_from_slice(&bytes);
            let number = form.pick(high, low);
            assert_eq!(verdict(&image, 1), (number, 0), "{bytes:x?}");
        }
    }
}

/// The coded size is what is judged, not the request: 1 to 8 are not "size zero", though
/// they leave the client no byte.
#[test]
fn userland_coded_sizes_1_to_8_are_not_31() {
    let codes = [0xfc, 0x1f7, 0x2f2, 0x3ed, 0x4e8, 0x5e3, 0x6de, 0x7d9];
    for form in [Form::UserHigh, Form::UserLow] {
        for size in [8, 24, 4096] {
            for (coded_size, r1) in (1..).zip(codes) {
                let image = one_out(form, size, r1);
                assert_eq!(verdict(&image, 0), (28, coded_size as u32), "{size}");
                all_refuse(image, HEAP_BASE, damage(28));
                let image = one_out_sound(form, size, r1, coded_size);
                assert_eq!(verdict(&image, 0), (30, 0), "{size} {coded_size}");
                all_refuse(image, HEAP_BASE, damage(30));
            }
        }
    }
}

/// Coded sizes of 1 to 8 above the buffer size, with their header: 32, though the request,
/// 8 less, is within the buffer.
#[test]
fn userland_coded_size_above_and_request_within() {
    let cases = [
        (8, 9, 0x8d4),
        (8, 16, 0xfb1),
        (24, 25, 0x1884),
        (24, 26, 0x197f),
        (24, 27, 0x1a7a),
        (24, 28, 0x1b75),
        (24, 29, 0x1c70),
        (24, 30, 0x1d6b),
        (24, 31, 0x1e66),
        (24, 32, 0x1f61),
        (4096, 4097, 0xf_b0fc),
        (4096, 4104, 0xf_b7d9),
    ];
    for form in [Form::UserHigh, Form::UserLow] {
        for (size, coded_size, r1) in cases {
            let mut image = one_out(form, size, r1);
            put_header(&mut image, 0, coded_size);
            assert_eq!(verdict(&image, 0), (32, 0), "{size} {coded_size}");
            all_refuse(image.clone(), HEAP_BASE, damage(32));
            let request = Grant::Sized(coded_size - 8);
            let answer = freed_by(1, &mut image, HEAP_BASE, request);
            assert_eq!(answer, damaged(32));
        }
    }
}

/// The guard of the dump's grant is at 20, R0 from 24 on.
#[test]
fn hurts_come_before_28() {
    for form in FORMS {
        for (r1, number) in HURTS {
            for r0 in [0, 0xbbedface, 0xfeedfabb, 0xfeedfacf] {
                let mut image = dump_with_redzone(form, r0, r1);
                assert_eq!(verdict(&image, 1), plain(number), "{r0:x}");
                image.heap[CHUNK[1] + 20] = 0;
                assert_eq!(verdict(&image, 1), plain(number), "{r0:x}");
                image.heap[CHUNK[1]..CHUNK[1] + 24].fill(0);
                assert_eq!(verdict(&image, 1), plain(number), "{r0:x}");
                all_refuse(image, BUFFER_1, damage(number));
            }
        }
    }
}

/// Size zero would have its guard at 0, and size 25 at 25, on R0: neither is looked for.
#[test]
fn guard_of_a_bad_code_is_not_looked_for() {
    for form in FORMS {
        for (r1, number) in HURTS {
            for at in [0, 24, 25] {
                for byte in [0xbb, 0xba] {
                    let mut image = dump_with_code(form, r1);
                    image.heap[CHUNK[1] + at] = byte;
                    assert_eq!(verdict(&image, 1), plain(number), "{at}");
                }
            }
        }
    }
}

/// Headers of nothing, of the size each code has, and of the dump's coded size.
#[test]
fn hurts_come_before_30() {
    for form in USER_FORMS {
        for (r1, number) in HURTS {
            for coded_size in [0, 20, 25] {
                let mut image = dump_with_code(form, r1);
                put_header(&mut image, CHUNK[1], coded_size);
                assert_eq!(verdict(&image, 1), plain(number), "{coded_size}");
                for at in [0, 4] {
                    let mut image = image.clone();
                    image.heap[CHUNK[1] + at] ^= 1;
                    assert_eq!(verdict(&image, 1), plain(number), "{coded_size}");
                    all_refuse(image, BUFFER_1, damage(number));
                }
            }
        }
    }
}

#[test]
fn hurts_come_after_20_to_24() {
    for form in FORMS {
        for (r1, number) in HURTS {
            let hurt = dump_with_code(form, r1);
            assert_eq!(verdict(&hurt, 1), plain(number));

            // No record names buffer 1, or two do.
            let mut image = hurt.clone();
            image.put_record(form.place(1) + ADDRESS, 0);
            assert_eq!(verdict(&image, 1), (20, 0));
            let mut image = hurt.clone();
            image.put_record(form.place(0) + ADDRESS, BUFFER_1);
            assert_eq!(verdict(&image, 1), (20, 0));

            // Neither pattern; the allocated pattern on record 0, 0x70ae31a0 xor
            // 0xa110c8ed = 0xd1bef94d.
            let mut image = hurt.clone();
            image.put_heap(CHUNK[1] + T1, 0);
            assert_eq!(verdict(&image, 1), (21, 0));
            let mut image = hurt.clone();
            image.put_heap(CHUNK[1] + T0, 0x70ae31a0);
            image.put_heap(CHUNK[1] + T1, 0xd1bef94d);
            assert_eq!(verdict(&image, 1), (21, 0));

            // The chain meets record 1, and then meets it again.
            let mut image = hurt.clone();
            put_sheet(&mut image.sheet, HEAD, form.record(1));
            assert_eq!(verdict(&image, 1), (24, 0));
            image.put_record(form.place(1) + NEXT, form.record(1));
            assert_eq!(verdict(&image, 1), (22, 0));
        }
    }
}

/// R1 of a free pattern is no size code: 23 where the chain doesn't meet the record, else
/// 25 and 26. No first byte of these codes, 00, 9e, 01 or 84, is that of 0xfeedface.
#[test]
fn bad_code_under_the_free_pattern() {
    for form in FORMS {
        for (r1, _) in HURTS {
            let mut image = dump(form);
            image.put_heap(CHUNK[0] + R1, r1);
            assert_eq!(verdict(&image, 0), (26, 28));
            image.heap[CHUNK[0] + 9] = 0;
            assert_eq!(verdict(&image, 0), (25, 9));
            put_sheet(&mut image.sheet, HEAD, form.record(0));
            assert_eq!(verdict(&image, 0), (23, 0));
        }
    }
}

/// "Details of refusal 7 follow": before 9 and 10, whatever the call asks for.
#[test]
fn refusal_7_with_each_hurt() {
    for form in FORMS {
        for (r1, number) in HURTS {
            all_refuse(dump_with_code(form, r1), BUFFER_1, damage(number));
        }
    }
}

#[test]
fn refusal_7_with_each_hurt_comes_after_13_4_21_and_8() {
    for form in FORMS {
        for (r1, _) in HURTS {
            let hurt = dump_with_code(form, r1);

            let mut image = hurt.clone();
            for grant in [Grant::Whole, Grant::Sized(dump_size(form))] {
                let answer = freed_by(0, &mut image, BUFFER_1, grant);
                assert_eq!(answer, refused(13));
            }
            assert_eq!(image, hurt);

            for address in [BUFFER_1 - 1, BUFFER_1 + 1, BUFFER_1 + 8] {
                all_refuse(hurt.clone(), address, other(4));
            }

            let mut image = hurt.clone();
            image.put_heap(CHUNK[1] + T1, 0);
            all_refuse(image, BUFFER_1, damage(21));
            let mut image = hurt.clone();
            image.put_record(form.place(1) + ADDRESS, 0);
            all_refuse(image, BUFFER_1, damage(21));

            let mut image = dump(form);
            image.put_heap(CHUNK[0] + R1, r1);
            all_refuse(image, BUFFER_0, other(8));
        }
    }
}

/// Free, store and show don't walk the chain and don't count the records that name the
/// buffer: where inspect finds 20, 22 or 24, the detail is still the hurt.
#[test]
fn refusal_7_with_each_hurt_where_the_verdict_is_20_22_or_24() {
    for form in FORMS {
        for (r1, number) in HURTS {
            let mut image = dump_with_code(form, r1);
            image.put_record(form.place(0) + ADDRESS, BUFFER_1);
            assert_eq!(verdict(&image, 1), (20, 0));
            all_refuse(image, BUFFER_1, damage(number));

            let mut image = dump_with_code(form, r1);
            put_sheet(&mut image.sheet, HEAD, form.record(1));
            assert_eq!(verdict(&image, 1), (24, 0));
            all_refuse(image.clone(), BUFFER_1, damage(number));
            image.put_record(form.place(1) + NEXT, form.record(1));
            assert_eq!(verdict(&image, 1), (22, 0));
            all_refuse(image, BUFFER_1, damage(number));
        }
    }
}

/// Allocate's details end with 26: the hurt of a buffer that is out doesn't stop it, that
/// of a head with the allocated pattern is 24, and R1 of a free head is redzone.
#[test]
fn allocate_never_gives_a_hurt() {
    for form in FORMS {
        for (r1, number) in HURTS {
            for grant in [Grant::Whole, Grant::Sized(1)] {
                let mut image = dump_with_code(form, r1);
                assert_eq!(allocated(&mut image, grant), Ok(BUFFER_0));
                assert_eq!(verdict(&image, 1), plain(number));

                let mut image = dump_with_code(form, r1);
                put_sheet(&mut image.sheet, HEAD, form.record(1));
                let before = image.clone();
                assert_eq!(allocated(&mut image, grant), damaged(24));
                assert_eq!(image, before);

                let mut image = dump(form);
                image.put_heap(CHUNK[0] + R1, r1);
                let before = image.clone();
                assert_eq!(allocated(&mut image, grant), damaged(26));
                assert_eq!(image, before);
            }
        }
    }
}

/// A bad code in one buffer is nothing to the calls on another.
#[test]
fn other_buffers_are_freed_stored_into_and_shown() {
    for form in FORMS {
        for (r1, number) in HURTS {
            // 0x70ae3260 xor 0xa110c8ed = 0xd1befa8d; 0x70ae3268 xor 0xa110c8ed =
            // 0xd1befa85. The head is record 0, and buffer 0 is out whole.
            let mut image = dump_with_code(form, r1);
            put_sheet(&mut image.sheet, HEAD, form.record(0));
            image.put_heap(CHUNK[0] + T1, form.of(0xd1befa8d, 0xd1befa85));
            assert_eq!(stored(&mut image, BUFFER_0, 0, &[0xaa; 24]), Ok(()));
            let client = Shown {
                offset: 0,
                bytes: &[0xaa; 24],
            };
            assert_eq!(shown(&image, BUFFER_0), Ok(client));
            assert_eq!(freed_by(1, &mut image, BUFFER_0, Grant::Whole), Ok(()));
            assert_eq!(verdict(&image, 0), (0, 0));
            assert_eq!(verdict(&image, 1), plain(number));
        }
    }
}

/// "`I fault V` or, for 25, 26 and 28, `I fault V OFFSET`": the hurts have no offset.
#[test]
fn report_of_each_hurt() {
    let cases = [
        (
            0x139e,
            "heap report 1\n0 free\n1 fault 27\n2 free\nchain 2 end\nfaults 1\n",
        ),
        (
            1,
            "heap report 1\n0 free\n1 fault 31\n2 free\nchain 2 end\nfaults 1\n",
        ),
        (
            0x1884,
            "heap report 1\n0 free\n1 fault 32\n2 free\nchain 2 end\nfaults 1\n",
        ),
    ];
    for form in FORMS {
        for (r1, expected) in cases {
            assert_eq!(text(&dump_with_code(form, r1)), expected);
        }
    }
}

/// The dump with all three buffers out by these codes. The tags are those of records 2, 1
/// and 0: 0xd1befa8d or 0xd1befa85, the dump's own, and 0xd1bef94d.
fn three_out(form: Form, codes: [u32; 3]) -> Image {
    let mut image = dump_with_head(form, 0);
    image.put_heap(CHUNK[0] + T1, form.of(0xd1befa8d, 0xd1befa85));
    image.put_heap(CHUNK[2] + T1, 0xd1bef94d);
    for (chunk, r1) in CHUNK.into_iter().zip(codes) {
        image.put_heap(chunk + R1, r1);
    }
    image
}

#[test]
fn faults_counts_each_hurt() {
    for form in FORMS {
        assert_eq!(
            text(&three_out(form, [1, 0x1884, 0])),
            "heap report 1\n0 fault 31\n1 fault 32\n2 fault 27\nchain 0 end\nfaults 3\n"
        );
        assert_eq!(
            text(&three_out(form, [0xffff_ff86, 1, 1])),
            "heap report 1\n0 fault 32\n1 fault 31\n2 fault 31\nchain 0 end\nfaults 3\n"
        );
        assert_eq!(
            text(&three_out(form, [0xfeedface, 1, 0xfeedface])),
            "heap report 1\n0 whole\n1 fault 31\n2 whole\nchain 0 end\nfaults 1\n"
        );
    }
}

#[test]
fn program_reports_each_hurt() {
    for form in KERNEL_FORMS {
        let image = three_out(form, [1, 0x1884, 0x139e]);
        let length = [image.sheet.len() as u8];
        let input = [&length[..], &image.sheet, &image.heap, &image.records].concat();
        let written = String::from_utf8(program(&input)).unwrap();
        assert_eq!(
            written,
            "heap report 1\n0 fault 31\n1 fault 32\n2 fault 27\nchain 0 end\nfaults 3\n"
        );
    }
}

/// The six lines have 14 + 7 + 11 + 7 + 12 + 9 = 60 bytes.
#[test]
fn output_of_the_exact_need_and_one_less() {
    for form in FORMS {
        for (r1, _) in HURTS {
            let image = dump_with_code(form, r1);
            let mut output = [b'x'; 61];
            let answer = reported(&image, &[], &[], &mut output[..59]);
            assert_eq!(answer, refused(11));
            assert_eq!(output, [b'x'; 61]);
            let answer = reported(&image, &[], &[], &mut output);
            assert_eq!(answer, Ok(60));
            assert_eq!(output[50..], *b"\nfaults 1\nx");
        }
    }
}
