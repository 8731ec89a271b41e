//! Allocate: the bytes it writes, in both orders and under both profiles, and what it
//! refuses, in order.

use crate::image::*;
use reference::{allocate, Grant, Refusal};

fn call_by(thread: u32, image: &mut Image, grant: Grant) -> Result<u32, Refusal> {
    allocate(
        image.form.profile(),
        &mut image.sheet,
        &mut image.heap,
        &mut image.records,
        grant,
        UPTIME,
        thread,
    )
}

fn call(image: &mut Image, grant: Grant) -> Result<u32, Refusal> {
    call_by(THREAD_WORD, image, grant)
}

/// Expects a refusal of the call that leaves every byte, and refusal 13 "before every
/// other test" of the same call by thread 0.
fn refuses(mut image: Image, grant: Grant, refusal: Result<u32, Refusal>) {
    let before = image.clone();
    assert_eq!(call(&mut image, grant), refusal);
    assert_eq!(image, before);
    refuses_thread_0(image, grant);
}

/// Expects refusal 13 of the call by thread 0 that leaves every byte.
fn refuses_thread_0(mut image: Image, grant: Grant) {
    let before = image.clone();
    assert_eq!(call_by(0, &mut image, grant), refused(13));
    assert_eq!(image, before);
}

/// The dump after its head, record 2, was granted, with these ten words in chunk 0.
fn granted(form: Form, chunk: [u32; 10]) -> Image {
    let mut image = dump_with_head(form, form.record(0));
    image.heap[..40].copy_from_slice(&form.words(&chunk));
    image.put_stamp(form.place(2), u64::from(UPTIME));
    image.put_record(form.place(2) + THREAD, THREAD_WORD);
    image
}

// 0x70ae3260 xor 0xa110c8ed = 0xd1befa8d, and 0x70ae3268 xor 0xa110c8ed = 0xd1befa85.

/// The two tag words of that chunk.
fn tag(form: Form) -> [u32; 2] {
    form.of([0x70ae3260, 0xd1befa8d], [0x70ae3268, 0xd1befa85])
}

/// The chunk of a sized grant under the userland profile starts with its header.
fn with_header(form: Form, mut chunk: [u32; 10], header: [u32; 2]) -> [u32; 10] {
    if USER_FORMS.contains(&form) {
        chunk[..2].copy_from_slice(&header);
    }
    chunk
}

/// A grant of 20 bytes, or of 12 bytes with the coded size 20.
/// 0x3a10c000 - 0x14 = 0x3a10bfec.
#[test]
fn grant_with_the_coded_size_20() {
    for form in FORMS {
        let mut image = dump(form);
        assert_eq!(
            call(&mut image, Grant::Sized(form.of(20, 12))),
            Ok(BUFFER_0)
        );
        // The byte bb stands first of its four: bb dd ca fe or bb ca dd ba.
        let guard = form.pick(0xbbddcafe, 0xbaddcabb);
        let [t0, t1] = tag(form);
        #[rustfmt::skip]
        let chunk = [
            0xbaddcafe, 0xbaddcafe, 0xbaddcafe, 0xbaddcafe, 0xbaddcafe, guard,
            0xfeedface, 0x0000139d, t0, t1,
        ];
        let chunk = with_header(form, chunk, [0x14, 0x3a10bfec]);
        assert_eq!(image, granted(form, chunk));
    }
}

#[test]
fn grant_of_one_byte() {
    for form in KERNEL_FORMS {
        let mut image = dump(form);
        assert_eq!(call(&mut image, Grant::Sized(1)), Ok(BUFFER_0));
        // The byte bb stands second of its four: ba bb ca fe or fe bb dd ba.
        let guard = form.pick(0xbabbcafe, 0xbaddbbfe);
        #[rustfmt::skip]
        let chunk = [
            guard, 0xbaddcafe, 0xbaddcafe, 0xbaddcafe, 0xbaddcafe, 0xbaddcafe,
            0xfeedface, 0x000000fc, 0x70ae3260, 0xd1befa8d,
        ];
        assert_eq!(image, granted(form, chunk));
    }
}

/// A grant of 24 bytes, or of 16 bytes with the coded size 24.
/// 0x3a10c000 - 0x18 = 0x3a10bfe8.
#[test]
fn grant_of_the_largest_size() {
    for form in FORMS {
        let mut image = dump(form);
        assert_eq!(
            call(&mut image, Grant::Sized(form.of(24, 16))),
            Ok(BUFFER_0)
        );
        let [t0, t1] = tag(form);
        #[rustfmt::skip]
        let chunk = [
            0xbaddcafe, 0xbaddcafe, 0xbaddcafe, 0xbaddcafe, 0xbaddcafe, 0xbaddcafe,
            full_r0(form), 0x00001789, t0, t1,
        ];
        let chunk = with_header(form, chunk, [0x18, 0x3a10bfe8]);
        assert_eq!(image, granted(form, chunk));
    }
}

#[test]
fn whole_grant() {
    for form in FORMS {
        let mut image = dump(form);
        assert_eq!(call(&mut image, Grant::Whole), Ok(BUFFER_0));
        let [t0, t1] = tag(form);
        #[rustfmt::skip]
        let chunk = [
            0xbaddcafe, 0xbaddcafe, 0xbaddcafe, 0xbaddcafe, 0xbaddcafe, 0xbaddcafe,
            0xfeedface, 0xfeedface, t0, t1,
        ];
        assert_eq!(image, granted(form, chunk));
    }
}

#[test]
fn stamps_high_half_is_written_0() {
    for form in FORMS {
        let mut image = dump(form);
        image.put_stamp(form.place(2), u64::MAX);
        assert_eq!(call(&mut image, Grant::Whole), Ok(BUFFER_0));
        // The uptime is 0x11223344.
        let stamp = form.pick(
            [0, 0, 0, 0, 0x11, 0x22, 0x33, 0x44],
            [0x44, 0x33, 0x22, 0x11, 0, 0, 0, 0],
        );
        assert_eq!(image.records[form.place(2) + STAMP..][..8], stamp);
    }
}

#[test]
fn head_becomes_the_next_word_whatever_it_is() {
    for form in FORMS {
        let mut image = dump(form);
        image.put_record(form.place(2) + NEXT, 0x1234_5678);
        assert_eq!(call(&mut image, Grant::Whole), Ok(BUFFER_0));
        assert_eq!(image.sheet[HEAD..HEAD + 4], [0x12, 0x34, 0x56, 0x78]);
        assert_eq!(
            image.records[form.place(2) + NEXT..][..4],
            form.words(&[0x1234_5678])
        );
    }
}

#[test]
fn second_record_naming_the_buffer_is_no_refusal() {
    for form in FORMS {
        let mut image = dump(form);
        image.put_record(form.place(1) + ADDRESS, BUFFER_0);
        assert_eq!(call(&mut image, Grant::Whole), Ok(BUFFER_0));
    }
}

#[test]
fn p12_fourth_allocate_in_a_fresh_heap_of_three() {
    for form in LONG_FORMS {
        let mut image = fresh(form, BUFFER_0, form.record(0), 24, 3);
        assert_eq!(call(&mut image, Grant::Sized(1)), Ok(BUFFER_0));
        assert_eq!(call(&mut image, Grant::Whole), Ok(BUFFER_1));
        let largest = Grant::Sized(form.of(24, 16));
        assert_eq!(call(&mut image, largest), Ok(BUFFER_2));
        refuses(image, Grant::Sized(1), refused(5));
    }
}

#[test]
fn refusal_13_thread_0() {
    for form in FORMS {
        for grant in [Grant::Whole, Grant::Sized(1), Grant::Sized(full_size(form))] {
            refuses_thread_0(dump(form), grant);
            let mut image = dump(form);
            assert_eq!(call(&mut image, grant), Ok(BUFFER_0));
        }
    }
}

/// Each other refusal of the call, given to another thread and not to thread 0.
#[test]
fn refusal_13_comes_before_every_other() {
    for form in FORMS {
        refuses(dump(form), Grant::Sized(0), refused(6));
        refuses(dump(form), Grant::Sized(full_size(form) + 1), refused(6));
        refuses(dump_with_head(form, 0), Grant::Sized(0), refused(6));
        refuses(dump_with_head(form, 0), Grant::Sized(1), refused(5));
        refuses(dump_with_head(form, 0), Grant::Whole, refused(5));
        refuses(dump_with_head(form, 1), Grant::Whole, damaged(29));

        let mut image = dump(form);
        image.put_record(form.place(2) + ADDRESS, 0);
        refuses(image, Grant::Whole, damaged(20));

        let allocated_head = dump_with_head(form, form.record(1));
        refuses(allocated_head, Grant::Whole, damaged(24));

        for (at, detail) in [(T0, 21), (T1, 21), (0, 25), (R0, 26), (R1, 26)] {
            let mut image = dump(form);
            image.put_heap(CHUNK[0] + at, 0);
            refuses(image, Grant::Whole, damaged(detail));
        }
    }
}

#[test]
fn any_other_thread_is_written() {
    for form in FORMS {
        for thread in THREADS {
            for old_thread in [0, thread] {
                let mut image = dump(form);
                image.put_record(form.place(2) + THREAD, old_thread);
                let mut expected = image.clone();
                assert_eq!(call_by(thread, &mut image, Grant::Whole), Ok(BUFFER_0));
                assert_eq!(call(&mut expected, Grant::Whole), Ok(BUFFER_0));
                expected.put_record(form.place(2) + THREAD, thread);
                assert_eq!(image, expected, "{thread:x}");
            }
        }
    }
}

#[test]
fn refusal_6_size_0_or_above_the_largest() {
    for form in FORMS {
        // Above buffer size, or above buffer size less 8.
        for size in [0, form.of(25, 17), 25, 0x1_0001, u32::MAX - 7, u32::MAX] {
            refuses(dump(form), Grant::Sized(size), refused(6));
            refuses(dump_with_head(form, 0), Grant::Sized(size), refused(6));
        }
    }
}

#[test]
fn refusal_5_head_is_0() {
    for form in FORMS {
        refuses(
            dump_with_head(form, 0),
            Grant::Sized(form.of(24, 16)),
            refused(5),
        );
        refuses(dump_with_head(form, 0), Grant::Whole, refused(5));
    }
}

#[test]
fn refusal_7_with_29_head_is_no_record() {
    for form in FORMS {
        let length = form.record_size() as u32;
        for head in [
            1,
            form.record(0) - length,
            form.record(0) + form.of(100, 96),
            form.record(2) + 1,
            form.record(2) + length,
            BUFFER_0,
        ] {
            refuses(dump_with_head(form, head), Grant::Whole, damaged(29));
        }
    }
}

#[test]
fn refusal_7_with_20_address_word_is_no_buffer() {
    for form in FORMS {
        for address in [0, BUFFER_0 + 8, BUFFER_0 - 40, BUFFER_2 + 40] {
            let mut image = dump(form);
            image.put_record(form.place(2) + ADDRESS, address);
            refuses(image, Grant::Whole, damaged(20));
        }
    }
}

#[test]
fn refusal_7_with_21_tag_is_not_the_heads() {
    for form in FORMS {
        // Buffer 2 is sound, but its T0 is record 0 and not the head.
        let mut image = dump(form);
        image.put_record(form.place(2) + ADDRESS, BUFFER_2);
        refuses(image, Grant::Whole, damaged(21));

        // The same with the allocated pattern of buffer 1: 21 comes before 24.
        let mut image = dump(form);
        image.put_record(form.place(2) + ADDRESS, BUFFER_1);
        refuses(image, Grant::Whole, damaged(21));
    }
}

#[test]
fn refusal_7_with_21_neither_pattern() {
    for form in FORMS {
        let mut image = dump(form);
        image.put_heap(CHUNK[0] + T1, form.of(0x8440c68f, 0x8440c687));
        image.heap[CHUNK[0]] = 0;
        refuses(image, Grant::Whole, damaged(21));
    }
}

#[test]
fn refusal_7_with_24_allocated_pattern() {
    for form in FORMS {
        refuses(
            dump_with_head(form, form.record(1)),
            Grant::Whole,
            damaged(24),
        );
    }
}

#[test]
fn refusal_7_with_25_fill() {
    for form in FORMS {
        for offset in [0, 23] {
            let mut image = dump(form);
            image.heap[CHUNK[0] + offset] ^= 1;
            image.put_heap(CHUNK[0] + R0, 0);
            refuses(image, Grant::Whole, damaged(25));
        }
    }
}

#[test]
fn refusal_7_with_26_redzone() {
    for form in FORMS {
        for offset in [24, 31] {
            let mut image = dump(form);
            image.heap[CHUNK[0] + offset] ^= 1;
            refuses(image, Grant::Whole, damaged(26));
        }
    }
}
