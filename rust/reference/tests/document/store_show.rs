//! Store and show: the client's bytes and what is refused, in order, under both profiles.

use crate::image::*;
use crate::made::*;
use reference::*;

/// Expects the same refusal of a store and a show, and every byte as before.
fn both_refuse(mut image: Image, address: u32, number: u8, detail: u8) {
    let refusal = Refusal { number, detail };
    let before = image.clone();
    assert_eq!(stored(&mut image, address, 0, &[1]), Err(refusal));
    assert_eq!(stored(&mut image, address, u32::MAX, &[1]), Err(refusal));
    assert_eq!(shown(&image, address), Err(refusal));
    assert_eq!(image, before);
}

/// Expects refusal 10 of a store into buffer 1, and every byte as before.
fn passes_the_end(mut image: Image, offset: u32, length: usize) {
    let before = image.clone();
    let answer = stored(&mut image, BUFFER_1, offset, &vec![1; length]);
    assert_eq!(answer, refused(10), "{offset} {length}");
    assert_eq!(image, before);
}

/// Where in the heap the client's bytes of the dump's buffer 1 start: with the buffer,
/// or after its header.
fn client_start(form: Form) -> usize {
    form.of(40, 48)
}

#[test]
fn show_of_a_sized_grant_is_the_bytes_asked_for() {
    for form in FORMS {
        let image = dump(form);
        let client = shown(&image, BUFFER_1).unwrap();
        let words = form.of(&[5, 0x4ef83, 0, 0, 1][..], &[5, 0x4ef83, 1]);
        assert_eq!(client.bytes, form.words(words));
        assert_eq!(client.offset, form.of(0, 8));
        let start = client_start(form);
        assert_eq!(client.bytes.as_ptr(), image.heap[start..].as_ptr());
    }
}

#[test]
fn show_of_a_full_size_grant_reaches_the_redzone() {
    for form in FORMS {
        let image = dump_full(form);
        let client = shown(&image, BUFFER_1).unwrap();
        assert_eq!(client.bytes, &image.heap[client_start(form)..64]);
        assert_eq!(client.offset, form.of(0, 8));
    }
}

#[test]
fn show_of_a_whole_grant_is_the_buffer() {
    for form in FORMS {
        let image = dump_whole(form);
        let client = Shown {
            offset: 0,
            bytes: &image.heap[40..64],
        };
        assert_eq!(shown(&image, BUFFER_1), Ok(client));
    }
}

#[test]
fn store_writes_its_bytes_and_no_other() {
    for form in FORMS {
        let mut image = dump(form);
        let mut expected = dump(form);
        expected.heap[client_start(form) + 7] = 0xaa;
        expected.heap[client_start(form) + 8] = 0xab;
        assert_eq!(stored(&mut image, BUFFER_1, 7, &[0xaa, 0xab]), Ok(()));
        assert_eq!(image, expected);
    }
}

#[test]
fn store_reaches_the_first_and_the_last_client_byte() {
    for form in FORMS {
        // The guard of the dump's grant is byte 20 of its chunk.
        for (offset, at) in [(0, form.of(0, 8)), (form.of(19, 11), 19)] {
            let mut image = dump(form);
            let mut expected = dump(form);
            expected.heap[CHUNK[1] + at] = 0xaa;
            assert_eq!(stored(&mut image, BUFFER_1, offset, &[0xaa]), Ok(()));
            assert_eq!(image, expected);
        }

        let mut image = dump_full(form);
        let mut expected = image.clone();
        expected.heap[client_start(form)..64].fill(0xaa);
        let bytes = vec![0xaa; full_size(form) as usize];
        assert_eq!(stored(&mut image, BUFFER_1, 0, &bytes), Ok(()));
        assert_eq!(image, expected);

        let mut image = dump_whole(form);
        let mut expected = image.clone();
        expected.heap[CHUNK[1]..CHUNK[1] + 24].fill(0xaa);
        assert_eq!(stored(&mut image, BUFFER_1, 0, &[0xaa; 24]), Ok(()));
        assert_eq!(image, expected);
    }
}

#[test]
fn empty_store_up_to_the_end_is_accepted() {
    for form in FORMS {
        let mut image = dump(form);
        for offset in [0, dump_size(form) - 1, dump_size(form)] {
            assert_eq!(stored(&mut image, BUFFER_1, offset, &[]), Ok(()));
            assert_eq!(image, dump(form));
        }
    }
}

#[test]
fn refusal_10_store_passes_the_clients_bytes() {
    for form in FORMS {
        let size = dump_size(form);
        passes_the_end(dump(form), size, 1);
        passes_the_end(dump(form), size - 1, 2);
        passes_the_end(dump(form), 0, size as usize + 1);
        passes_the_end(dump(form), size + 1, 0);
        passes_the_end(dump_full(form), full_size(form), 1);
        passes_the_end(dump_full(form), full_size(form) + 1, 0);
        passes_the_end(dump_whole(form), 24, 1);
        passes_the_end(dump_whole(form), 25, 0);
    }
}

/// 12 client bytes of a buffer of 24 are out: the offset counts from the first of them,
/// so the coded size and the buffer size are far beyond their end.
#[test]
fn refusal_10_coded_size_is_no_bound() {
    for form in USER_FORMS {
        passes_the_end(dump(form), 20, 0);
        passes_the_end(dump(form), 0, 20);
        passes_the_end(dump(form), 16, 0);
        passes_the_end(dump_full(form), 0, 24);
    }
}

#[test]
fn refusal_10_store_near_2_to_the_32() {
    for form in FORMS {
        passes_the_end(dump(form), u32::MAX, 0);
        passes_the_end(dump(form), u32::MAX, 1);
        passes_the_end(dump(form), u32::MAX, 2);
        passes_the_end(dump(form), 0xffff_fff0, 16);
        passes_the_end(dump(form), 0xffff_fff0, 20);
        // With the header's length these come to 2^32.
        passes_the_end(dump(form), 0xffff_fff8, 0);
        passes_the_end(dump(form), 0xffff_fff8, 8);
    }
}

#[test]
fn refusal_4_address_is_no_buffers_start() {
    for form in FORMS {
        for address in [0, BUFFER_1 + 1, BUFFER_0 - 40, BUFFER_2 + 40, u32::MAX] {
            both_refuse(dump(form), address, 4, 0);
        }
    }
}

#[test]
fn refusal_7_with_21_tag() {
    for form in FORMS {
        let mut image = dump(form);
        image.put_heap(CHUNK[1] + T1, 0);
        both_refuse(image, BUFFER_1, 7, 21);

        let mut image = dump(form);
        image.put_record(form.place(1) + ADDRESS, BUFFER_2);
        both_refuse(image, BUFFER_1, 7, 21);

        // 0x70ae3208 xor 0xa110c8ed = 0xd1befae5.
        let mut image = dump(form);
        image.put_heap(CHUNK[1] + T0, 0x70ae3208);
        image.put_heap(CHUNK[1] + T1, 0xd1befae5);
        both_refuse(image, BUFFER_1, 7, 21);
    }
}

#[test]
fn refusal_8_free_pattern() {
    for form in FORMS {
        both_refuse(dump(form), BUFFER_0, 8, 0);
        both_refuse(dump(form), BUFFER_2, 8, 0);
    }
}

#[test]
fn refusal_7_with_27_31_or_32_no_size_code() {
    for form in FORMS {
        for (r1, detail) in [(0, 27), (1, 31), (0x139e, 27), (0x1884, 32)] {
            let image = dump_with_redzone(form, 0xfeedface, r1);
            both_refuse(image, BUFFER_1, 7, detail);
        }
    }
}

#[test]
fn refusal_7_with_28_guard_or_redzone() {
    for form in FORMS {
        both_refuse(dump_with_redzone(form, 0xfeedface, 0x1789), BUFFER_1, 7, 28);
        let mut image = dump_full(form);
        image.put_heap(CHUNK[1] + R0, 0xfeedface);
        both_refuse(image, BUFFER_1, 7, 28);
        both_refuse(
            dump_with_redzone(form, full_r0(form), 0x139d),
            BUFFER_1,
            7,
            28,
        );
        both_refuse(
            dump_with_redzone(form, full_r0(form), 0xfeedface),
            BUFFER_1,
            7,
            28,
        );
    }
}

#[test]
fn refusal_7_with_30_header() {
    for form in USER_FORMS {
        for at in 0..8 {
            let mut image = dump(form);
            image.heap[CHUNK[1] + at] ^= 0x40;
            both_refuse(image.clone(), BUFFER_1, 7, 30);
            image.heap[CHUNK[1] + 20] = 0;
            both_refuse(image, BUFFER_1, 7, 28);
        }
        // The header of another coded size, and that of none.
        let mut image = dump_full(form);
        image.put_heap(CHUNK[1], 0x14);
        image.put_heap(CHUNK[1] + 4, 0x3a10bfec);
        both_refuse(image, BUFFER_1, 7, 30);
        both_refuse(
            dump_with_redzone(form, full_r0(form), 0x1789),
            BUFFER_1,
            7,
            30,
        );
    }
}
