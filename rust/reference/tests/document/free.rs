//! Free: the bytes it writes, in both orders and under both profiles, and what it
//! refuses, in order.

use crate::image::*;
use reference::{free, Grant, Refusal};

fn call_by(thread: u32, image: &mut Image, address: u32, grant: Grant) -> Result<(), Refusal> {
    free(
        image.form.profile(),
        &mut image.sheet,
        &mut image.heap,
        &mut image.records,
        address,
        grant,
        UPTIME,
        thread,
    )
}

fn call(image: &mut Image, address: u32, grant: Grant) -> Result<(), Refusal> {
    call_by(THREAD_WORD, image, address, grant)
}

/// Expects a refusal of the call that leaves every byte, and refusal 13 "before every
/// other test" of the same call by thread 0.
fn refuses(mut image: Image, address: u32, grant: Grant, refusal: Result<(), Refusal>) {
    let before = image.clone();
    assert_eq!(call(&mut image, address, grant), refusal);
    assert_eq!(image, before);
    refuses_thread_0(image, address, grant);
}

/// Expects refusal 13 of the call by thread 0 that leaves every byte.
fn refuses_thread_0(mut image: Image, address: u32, grant: Grant) {
    let before = image.clone();
    assert_eq!(call_by(0, &mut image, address, grant), refused(13));
    assert_eq!(image, before);
}

/// The dump after buffer 1 was freed, where the head before was this.
fn freed(form: Form, old_head: u32) -> Image {
    let mut image = dump_with_head(form, form.record(1));
    // 0x70ae3200 xor 0xf4eef4ee = 0x8440c6ee; 0x70ae3204 xor 0xf4eef4ee = 0x8440c6ea.
    let [t0, t1] = form.of([0x70ae3200, 0x8440c6ee], [0x70ae3204, 0x8440c6ea]);
    #[rustfmt::skip]
    let chunk = form.words(&[
        0xdeadbeef, 0xdeadbeef, 0xdeadbeef, 0xdeadbeef, 0xdeadbeef, 0xdeadbeef,
        0xfeedface, 0xfeedface, t0, t1,
    ]);
    image.heap[40..80].copy_from_slice(&chunk);
    image.put_record(form.place(1) + NEXT, old_head);
    image.put_stamp(form.place(1), u64::from(UPTIME));
    image.put_record(form.place(1) + THREAD, THREAD_WORD);
    image
}

#[test]
fn sized_grant_is_freed() {
    for form in FORMS {
        let mut image = dump(form);
        image.put_stamp(form.place(1), 7 << 32);
        assert_eq!(
            call(&mut image, BUFFER_1, Grant::Sized(dump_size(form))),
            Ok(())
        );
        assert_eq!(image, freed(form, form.record(2)));
    }
}

#[test]
fn full_size_grant_is_freed() {
    for form in FORMS {
        let mut image = dump_full(form);
        let largest = Grant::Sized(full_size(form));
        assert_eq!(call(&mut image, BUFFER_1, largest), Ok(()));
        assert_eq!(image, freed(form, form.record(2)));
    }
}

#[test]
fn whole_grant_is_freed() {
    for form in FORMS {
        let mut image = dump_whole(form);
        assert_eq!(call(&mut image, BUFFER_1, Grant::Whole), Ok(()));
        assert_eq!(image, freed(form, form.record(2)));
    }
}

#[test]
fn old_head_goes_into_next_whatever_it_is() {
    for form in FORMS {
        for head in [0, form.record(0), form.record(1), 0x1234_5678] {
            let mut image = dump_with_head(form, head);
            assert_eq!(
                call(&mut image, BUFFER_1, Grant::Sized(dump_size(form))),
                Ok(())
            );
            assert_eq!(image, freed(form, head));
        }
    }
}

#[test]
fn refusal_13_thread_0() {
    for form in FORMS {
        refuses_thread_0(dump(form), BUFFER_1, Grant::Sized(dump_size(form)));
        refuses_thread_0(dump_full(form), BUFFER_1, Grant::Sized(full_size(form)));
        refuses_thread_0(dump_whole(form), BUFFER_1, Grant::Whole);
    }
}

/// Each other refusal of the call, given to another thread and not to thread 0.
#[test]
fn refusal_13_comes_before_every_other() {
    for form in FORMS {
        let grant = Grant::Sized(dump_size(form));
        refuses(dump(form), BUFFER_1 + 1, grant, refused(4));
        refuses(dump(form), 0, grant, refused(4));
        refuses(dump(form), BUFFER_0, grant, refused(8));
        refuses(dump(form), BUFFER_1, Grant::Whole, refused(9));
        refuses(dump(form), BUFFER_1, Grant::Sized(0), refused(9));

        let mut image = dump(form);
        image.put_record(form.place(1) + ADDRESS, 0);
        refuses(image, BUFFER_1, grant, damaged(21));

        // The guard stands at 20.
        for (at, detail) in [(T0, 21), (T1, 21), (R1, 27), (20, 28), (R0, 28)] {
            let mut image = dump(form);
            image.put_heap(CHUNK[1] + at, 0);
            refuses(image, BUFFER_1, grant, damaged(detail));
        }
    }
    for form in USER_FORMS {
        let grant = Grant::Sized(dump_size(form));
        for at in [0, 4] {
            let mut image = dump(form);
            image.put_heap(CHUNK[1] + at, 0);
            refuses(image, BUFFER_1, grant, damaged(30));
        }
    }
}

#[test]
fn any_other_thread_is_written() {
    for form in FORMS {
        for thread in THREADS {
            for old_thread in [0, thread] {
                let mut image = dump_whole(form);
                image.put_record(form.place(1) + THREAD, old_thread);
                let mut expected = freed(form, form.record(2));
                expected.put_record(form.place(1) + THREAD, thread);
                let answer = call_by(thread, &mut image, BUFFER_1, Grant::Whole);
                assert_eq!(answer, Ok(()), "{thread:x}");
                assert_eq!(image, expected, "{thread:x}");
            }
        }
    }
}

#[test]
fn refusal_4_address_is_no_buffers_start() {
    for form in FORMS {
        for address in [
            0,
            BUFFER_1 + 1,
            BUFFER_1 + 8,
            BUFFER_0 - 40,
            BUFFER_2 + 40,
            form.record(1),
        ] {
            refuses(
                dump(form),
                address,
                Grant::Sized(dump_size(form)),
                refused(4),
            );
        }
    }
}

#[test]
fn refusal_7_with_21_t0_names_no_record() {
    for form in FORMS {
        // 0x70ae3208 xor 0xa110c8ed = 0xd1befae5. No record of either profile starts there.
        let mut image = dump(form);
        image.put_heap(CHUNK[1] + T0, 0x70ae3208);
        image.put_heap(CHUNK[1] + T1, 0xd1befae5);
        refuses(image, BUFFER_1, Grant::Sized(dump_size(form)), damaged(21));
    }
}

#[test]
fn refusal_7_with_21_record_names_another_buffer() {
    for form in FORMS {
        for address in [BUFFER_0, BUFFER_1 + 4, 0] {
            let mut image = dump(form);
            image.put_record(form.place(1) + ADDRESS, address);
            refuses(image, BUFFER_1, Grant::Sized(dump_size(form)), damaged(21));
        }
        // On a free buffer too: 21 comes before 8.
        let mut image = dump(form);
        image.put_record(form.place(2) + ADDRESS, BUFFER_1);
        refuses(image, BUFFER_0, Grant::Sized(dump_size(form)), damaged(21));
    }
}

#[test]
fn refusal_7_with_21_neither_pattern() {
    for form in FORMS {
        let mut image = dump(form);
        image.put_heap(CHUNK[1] + T1, form.of(0xd1befaec, 0xd1befae8));
        image.put_heap(CHUNK[1] + R1, 0);
        refuses(image, BUFFER_1, Grant::Sized(dump_size(form)), damaged(21));
    }
}

#[test]
fn refusal_8_free_pattern() {
    for form in FORMS {
        let mut image = dump(form);
        image.heap[CHUNK[0]] = 0;
        image.put_heap(CHUNK[0] + R0, 0);
        refuses(image, BUFFER_0, Grant::Whole, refused(8));
        refuses(dump(form), BUFFER_2, Grant::Sized(0), refused(8));
    }
}

#[test]
fn refusal_7_with_27_31_or_32_no_size_code() {
    for form in FORMS {
        for (r1, detail) in [(0, 27), (1, 31), (0x139e, 27), (0x1884, 32)] {
            let image = dump_with_redzone(form, 0xfeedface, r1);
            refuses(image, BUFFER_1, Grant::Whole, damaged(detail));
        }
    }
}

#[test]
fn refusal_7_with_28_guard_or_redzone() {
    for form in FORMS {
        let mut image = dump(form);
        image.heap[CHUNK[1] + 20] = 0;
        refuses(image, BUFFER_1, Grant::Whole, damaged(28));
        for (r0, r1) in [
            (0xfeedfacf, 0x139d),
            (0xfeedface, 0x1789),
            (0x00edface, 0xfeedface),
        ] {
            refuses(
                dump_with_redzone(form, r0, r1),
                BUFFER_1,
                Grant::Sized(dump_size(form)),
                damaged(28),
            );
        }
    }
}

#[test]
fn refusal_9_size_or_whole_differs_from_the_grant() {
    for form in FORMS {
        let size = dump_size(form);
        for other in [0, 4, size - 1, size + 1, 24, 25, u32::MAX] {
            refuses(dump(form), BUFFER_1, Grant::Sized(other), refused(9));
        }
        refuses(dump(form), BUFFER_1, Grant::Whole, refused(9));
        refuses(dump_full(form), BUFFER_1, Grant::Whole, refused(9));
        for size in [16, 24] {
            refuses(dump_whole(form), BUFFER_1, Grant::Sized(size), refused(9));
        }
    }
}

/// "Verdict 2 and free name the request", not the coded size.
#[test]
fn refusal_9_coded_size() {
    for form in USER_FORMS {
        refuses(dump(form), BUFFER_1, Grant::Sized(20), refused(9));
        refuses(dump_full(form), BUFFER_1, Grant::Sized(24), refused(9));
    }
}

#[test]
fn refusal_7_with_30_comes_after_28_and_before_9() {
    for form in USER_FORMS {
        let mut image = dump(form);
        image.heap[CHUNK[1]] ^= 1;
        for grant in [Grant::Sized(12), Grant::Sized(20), Grant::Whole] {
            refuses(image.clone(), BUFFER_1, grant, damaged(30));
        }
        image.heap[CHUNK[1] + 20] = 0;
        refuses(image, BUFFER_1, Grant::Sized(12), damaged(28));
    }
}

#[test]
fn second_record_naming_the_buffer_is_no_refusal() {
    for form in FORMS {
        let mut image = dump(form);
        image.put_record(form.place(0) + ADDRESS, BUFFER_1);
        assert_eq!(
            call(&mut image, BUFFER_1, Grant::Sized(dump_size(form))),
            Ok(())
        );
    }
}

#[test]
fn record_met_by_the_chain_is_no_refusal() {
    for form in FORMS {
        let mut image = dump_with_head(form, form.record(1));
        assert_eq!(
            call(&mut image, BUFFER_1, Grant::Sized(dump_size(form))),
            Ok(())
        );
        assert_eq!(image, freed(form, form.record(1)));
    }
}
