//! The userland profile's own rules: the header of a sized grant, its coded size and
//! verdict 30, in both orders.

use crate::image::*;
use crate::made::*;
use reference::*;

/// The forms that lay out writes under the userland profile.
const USER_LONG: [Form; 2] = [Form::UserHigh, Form::UserLow];

/// Where the one heap of these tests and its records start.
const HEAP_BASE: u32 = 0x1000;
const RECORD_BASE: u32 = 0x1_0000;

/// A fresh heap of one buffer.
fn one_buffer(form: Form, size: u32) -> Image {
    fresh(form, HEAP_BASE, RECORD_BASE, size, 1)
}

/// The dump with the coded size 1 to 23 in R1 of buffer 1, its guard, and the header of
/// this coded size.
fn dump_with_code(form: Form, coded_size: usize, r1: u32) -> Image {
    let mut image = dump_with_redzone(form, 0xfeedface, r1);
    image.put_heap(CHUNK[1], coded_size as u32);
    image.put_heap(CHUNK[1] + 4, 0x3a10c000 - coded_size as u32);
    image.heap[CHUNK[1] + coded_size] = 0xbb;
    image
}

/// "A request of 10 gives 0x12, 0x3a10bfee, code 0x11a7 and guard at 18."
#[test]
fn worked_example_byte_for_byte() {
    // 0x70ae3268 xor 0xa110c8ed = 0xd1befa85.
    #[rustfmt::skip]
    let high = [
        0x00, 0x00, 0x00, 0x12, 0x3a, 0x10, 0xbf, 0xee,
        0xba, 0xdd, 0xca, 0xfe, 0xba, 0xdd, 0xca, 0xfe,
        0xba, 0xdd, 0xbb, 0xfe, 0xba, 0xdd, 0xca, 0xfe,
        0xfe, 0xed, 0xfa, 0xce, 0x00, 0x00, 0x11, 0xa7,
        0x70, 0xae, 0x32, 0x68, 0xd1, 0xbe, 0xfa, 0x85,
    ];
    #[rustfmt::skip]
    let low = [
        0x12, 0x00, 0x00, 0x00, 0xee, 0xbf, 0x10, 0x3a,
        0xfe, 0xca, 0xdd, 0xba, 0xfe, 0xca, 0xdd, 0xba,
        0xfe, 0xca, 0xbb, 0xba, 0xfe, 0xca, 0xdd, 0xba,
        0xce, 0xfa, 0xed, 0xfe, 0xa7, 0x11, 0x00, 0x00,
        0x68, 0x32, 0xae, 0x70, 0x85, 0xfa, 0xbe, 0xd1,
    ];
    for form in USER_FORMS {
        let mut image = dump(form);
        assert_eq!(allocated(&mut image, Grant::Sized(10)), Ok(BUFFER_0));
        let chunk = form.pick(high, low);
        assert_eq!(image.heap[..40], chunk);
        assert_eq!(image.heap[40..], dump(form).heap[40..]);
        assert_eq!(verdict(&image, 0), (2, 10));
        let client = Shown {
            offset: 8,
            bytes: &chunk[8..18],
        };
        assert_eq!(shown(&image, BUFFER_0), Ok(client));
    }
}

#[test]
fn worked_example_is_stored_into_and_freed() {
    for form in USER_FORMS {
        let mut image = dump(form);
        assert_eq!(allocated(&mut image, Grant::Sized(10)), Ok(BUFFER_0));
        let mut expected = image.clone();
        expected.heap[8..18].fill(0xff);
        assert_eq!(stored(&mut image, BUFFER_0, 0, &[0xff; 10]), Ok(()));
        assert_eq!(stored(&mut image, BUFFER_0, 10, &[]), Ok(()));
        for (offset, length) in [(10, 1), (0, 11), (11, 0), (18, 0), (9, 2)] {
            let bytes = vec![0; length];
            let answer = stored(&mut image, BUFFER_0, offset, &bytes);
            assert_eq!(answer, refused(10), "{offset} {length}");
        }
        assert_eq!(verdict(&image, 0), (2, 10));
        for grant in [Grant::Sized(18), Grant::Sized(2), Grant::Whole] {
            assert_eq!(freed(&mut image, BUFFER_0, grant), refused(9));
        }
        assert_eq!(image, expected);
        assert_eq!(freed(&mut image, BUFFER_0, Grant::Sized(10)), Ok(()));
        assert_eq!(verdict(&image, 0), (0, 0));
        assert_eq!(image.heap, dump(form).heap);
    }
}

/// Requests 1 and 8 of a buffer of 16, and the largest of a buffer of 4,096: coded sizes
/// 9, 16 and 4,096. 251 * 9 + 1 = 0x8d4, 251 * 16 + 1 = 0xfb1, 251 * 4096 + 1 = 0xfb001.
#[test]
fn smallest_and_largest_requests() {
    let cases = [
        (16, 1, [9, 0x3a10bff7], 0x8d4),
        (16, 8, [16, 0x3a10bff0], 0xfb1),
        (4096, 4088, [4096, 0x3a10b000], 0xfb001),
    ];
    for form in USER_LONG {
        for (size, request, header, code) in cases {
            let mut image = one_buffer(form, size);
            let grant = Grant::Sized(request);
            assert_eq!(allocated(&mut image, grant), Ok(HEAP_BASE));
            assert_eq!(image.heap[..8], form.words(&header));
            assert_eq!(image.heap[request as usize + 8], 0xbb);
            let size = size as usize;
            let is_largest = request as usize + 8 == size;
            let r0 = if is_largest {
                full_r0(form)
            } else {
                0xfeedface
            };
            assert_eq!(image.heap[size..size + 8], form.words(&[r0, code]));
            assert_eq!(verdict(&image, 0), (2, request));
            let client = shown(&image, HEAP_BASE).unwrap();
            assert_eq!((client.offset, client.bytes.len()), (8, request as usize));

            // Every client byte stored over, and the grant is still found.
            let bytes = vec![0xbb; request as usize];
            assert_eq!(stored(&mut image, HEAP_BASE, 0, &bytes), Ok(()));
            assert_eq!(verdict(&image, 0), (2, request));
            assert_eq!(freed(&mut image, HEAP_BASE, grant), Ok(()));
            assert_eq!(verdict(&image, 0), (0, 0));
        }
    }
}

#[test]
fn refusal_6_on_both_sides_of_the_largest_request() {
    for form in USER_LONG {
        for size in [16, 24, 4096] {
            let largest = size - 8;
            for request in [0, largest + 1, size, size + 1, u32::MAX - 8, u32::MAX] {
                let mut image = one_buffer(form, size);
                let before = image.clone();
                let answer = allocated(&mut image, Grant::Sized(request));
                assert_eq!(answer, refused(6), "{size} {request}");
                assert_eq!(image, before);
            }
            let mut image = one_buffer(form, size);
            let answer = allocated(&mut image, Grant::Sized(largest));
            assert_eq!(answer, Ok(HEAP_BASE));
        }
    }
}

/// A buffer of 8 bytes has no room for a header and a client byte.
#[test]
fn buffer_of_8_bytes_is_granted_whole_only() {
    for form in USER_LONG {
        for request in [0, 1, 2, 7, 8, 9, 16, u32::MAX - 7, u32::MAX] {
            let mut image = one_buffer(form, 8);
            let before = image.clone();
            let answer = allocated(&mut image, Grant::Sized(request));
            assert_eq!(answer, refused(6), "{request}");
            assert_eq!(image, before);
        }
        let mut image = one_buffer(form, 8);
        assert_eq!(allocated(&mut image, Grant::Whole), Ok(HEAP_BASE));
        let client = Shown {
            offset: 0,
            bytes: &form.words(&[0xbaddcafe, 0xbaddcafe]),
        };
        assert_eq!(shown(&image, HEAP_BASE), Ok(client));
        assert_eq!(stored(&mut image, HEAP_BASE, 0, &[1; 8]), Ok(()));
        assert_eq!(stored(&mut image, HEAP_BASE, 8, &[1]), refused(10));
        assert_eq!(verdict(&image, 0), (1, 0));
        // Refusal 6 comes before 5.
        assert_eq!(allocated(&mut image, Grant::Sized(1)), refused(6));
        assert_eq!(allocated(&mut image, Grant::Whole), refused(5));
        assert_eq!(freed(&mut image, HEAP_BASE, Grant::Sized(8)), refused(9));
        assert_eq!(freed(&mut image, HEAP_BASE, Grant::Whole), Ok(()));
    }
}

/// A buffer of 8 bytes with the coded size 8, its header and its guard, 0xbb on R0:
/// 251 * 8 + 1 = 0x7d9 and 0x3a10c000 - 8 = 0x3a10bff8.
#[test]
fn verdict_30_in_a_buffer_of_8_bytes() {
    for form in USER_LONG {
        let mut image = one_buffer(form, 8);
        assert_eq!(allocated(&mut image, Grant::Whole), Ok(HEAP_BASE));
        let words = [8, 0x3a10bff8, full_r0(form), 0x7d9];
        image.heap[..16].copy_from_slice(&form.words(&words));
        assert_eq!(verdict(&image, 0), (30, 0));
        assert_eq!(shown(&image, HEAP_BASE), damaged(30));
        // Coded size 9 is above this buffer's size.
        image.put_heap(12, 0x8d4);
        assert_eq!(verdict(&image, 0), (32, 0));
    }
}

/// The codes of 1 to 8, each with its guard and its header but for the guard's byte.
#[test]
fn verdict_30_coded_size_below_9() {
    let codes = [0xfc, 0x1f7, 0x2f2, 0x3ed, 0x4e8, 0x5e3, 0x6de, 0x7d9];
    for form in USER_FORMS {
        for (coded_size, r1) in (1..).zip(codes) {
            let mut image = dump_with_code(form, coded_size, r1);
            assert_eq!(verdict(&image, 1), (30, 0), "{coded_size}");
            assert_eq!(shown(&image, BUFFER_1), damaged(30));
            for grant in [Grant::Sized(0), Grant::Sized(coded_size as u32)] {
                assert_eq!(freed(&mut image, BUFFER_1, grant), damaged(30));
            }
            // Without the guard it is 28 at the coded size.
            image.heap[CHUNK[1] + coded_size] = 0;
            assert_eq!(verdict(&image, 1), (28, coded_size as u32));
        }
        let image = dump_with_code(form, 9, 0x8d4);
        assert_eq!(verdict(&image, 1), (2, 1));
        let image = dump_with_code(form, 18, 0x11a7);
        assert_eq!(verdict(&image, 1), (2, 10));
    }
}

/// Headers other than 0x14, 0x3a10bfec of the dump's coded size 20.
#[test]
fn verdict_30_header_wrong() {
    let headers = [
        // The first word wrong: 0, the request, the code, the other order.
        [0, 0x3a10bfec],
        [12, 0x3a10bfec],
        [0x139d, 0x3a10bfec],
        [0x1400_0000, 0x3a10bfec],
        [0x13, 0x3a10bfec],
        [0x15, 0x3a10bfec],
        // The second word wrong: minus 0, minus the request, plus 20, the other order.
        [0x14, 0],
        [0x14, 0x3a10c000],
        [0x14, 0x3a10bff4],
        [0x14, 0x3a10c014],
        [0x14, 0xecbf_103a],
        [0x14, 0x3a10bfed],
        // Both wrong, with the right sum or turned round.
        [0x12, 0x3a10bfee],
        [0x18, 0x3a10bfe8],
        [0x3a10bfec, 0x14],
        [0xbaddcafe, 0xbaddcafe],
    ];
    for form in USER_FORMS {
        for header in headers {
            let mut image = dump(form);
            image.heap[CHUNK[1]..][..8].copy_from_slice(&form.words(&header));
            assert_eq!(verdict(&image, 1), (30, 0), "{header:x?}");
            assert_eq!(shown(&image, BUFFER_1), damaged(30));
        }
    }
}

#[test]
fn verdict_30_by_each_bit_of_the_header() {
    for form in USER_FORMS {
        for bit in 0..64 {
            let mut image = dump(form);
            image.heap[CHUNK[1] + bit / 8] ^= 1 << (bit % 8);
            assert_eq!(verdict(&image, 1), (30, 0), "{bit}");
        }
    }
}

#[test]
fn verdict_30_comes_after_20_to_28() {
    for form in USER_FORMS {
        let mut wrong = dump(form);
        wrong.heap[CHUNK[1]] ^= 1;
        assert_eq!(verdict(&wrong, 1), (30, 0));

        let mut image = wrong.clone();
        image.put_record(form.place(0) + ADDRESS, BUFFER_1);
        assert_eq!(verdict(&image, 1), (20, 0));

        let mut image = wrong.clone();
        image.put_heap(CHUNK[1] + T1, 0);
        assert_eq!(verdict(&image, 1), (21, 0));

        let mut image = wrong.clone();
        put_sheet(&mut image.sheet, HEAD, form.record(1));
        assert_eq!(verdict(&image, 1), (24, 0));
        image.put_record(form.place(1) + NEXT, form.record(1));
        assert_eq!(verdict(&image, 1), (22, 0));

        let mut image = wrong.clone();
        image.put_heap(CHUNK[1] + R1, 0x139e);
        assert_eq!(verdict(&image, 1), (27, 0));

        let mut image = wrong.clone();
        image.heap[CHUNK[1] + 20] = 0;
        assert_eq!(verdict(&image, 1), (28, 20));

        let mut image = wrong.clone();
        image.heap[CHUNK[1] + 26] = 0;
        assert_eq!(verdict(&image, 1), (28, 26));
    }
}

#[test]
fn number_and_value_of_verdict_30() {
    assert_eq!(Verdict::BadHeader.number(), 30);
    assert_eq!(Verdict::BadHeader.value(), 0);
}

/// "Whole grants have none": their first 8 bytes are the client's.
#[test]
fn whole_grant_with_anything_in_its_first_8_bytes() {
    for form in USER_FORMS {
        let firsts = [
            [0, 0],
            [0xffff_ffff, 0xffff_ffff],
            [0x14, 0x3a10bfec],
            [0x18, 0x3a10bfe8],
            [0x20, 0x3a10bfe0],
            [0xdeadbeef, 0xdeadbeef],
        ];
        for first in firsts {
            let mut image = dump_whole(form);
            let bytes = form.words(&first);
            assert_eq!(stored(&mut image, BUFFER_1, 0, &bytes), Ok(()));
            assert_eq!(image.heap[CHUNK[1]..][..8], bytes);
            assert_eq!(verdict(&image, 1), (1, 0));
            let client = Shown {
                offset: 0,
                bytes: &image.heap[40..64],
            };
            assert_eq!(shown(&image, BUFFER_1), Ok(client));
            assert_eq!(freed(&mut image, BUFFER_1, Grant::Sized(16)), refused(9));
            assert_eq!(freed(&mut image, BUFFER_1, Grant::Whole), Ok(()));
        }
    }
}

/// A free buffer has no header to be judged.
#[test]
fn header_left_in_a_free_buffer_is_a_fill_that_differs() {
    for form in USER_FORMS {
        let mut image = dump(form);
        image.put_heap(CHUNK[0], 0x14);
        image.put_heap(CHUNK[0] + 4, 0x3a10bfec);
        assert_eq!(verdict(&image, 0), (25, 0));
    }
}

/// One record starts at its base under both profiles, so with 4 bytes more or less the
/// image of one is an image of the other.
#[test]
fn sized_grant_read_under_the_other_profile() {
    for form in [Form::High, Form::Low] {
        // The client's bytes are no header, until the client stores one.
        let mut image = one_buffer(form, 24);
        assert_eq!(allocated(&mut image, Grant::Sized(20)), Ok(HEAP_BASE));
        let mut longer = image.clone();
        longer.form = form.pick(Form::UserHigh, Form::UserLow);
        assert_eq!(shown(&longer, HEAP_BASE), refused(3));
        longer.records.extend([0; 4]);
        assert_eq!(verdict(&longer, 0), (30, 0));
        assert_eq!(shown(&longer, HEAP_BASE), damaged(30));
        longer.heap[..8].copy_from_slice(&form.words(&[0x14, 0x3a10bfec]));
        assert_eq!(verdict(&longer, 0), (2, 12));
        assert_eq!(verdict(&image, 0), (2, 20));
    }
    for form in USER_LONG {
        // The coded size is taken for the size, and the header for client bytes.
        let mut image = one_buffer(form, 24);
        assert_eq!(allocated(&mut image, Grant::Sized(12)), Ok(HEAP_BASE));
        let mut shorter = image.clone();
        shorter.form = form.pick(Form::High, Form::Low);
        assert_eq!(shown(&shorter, HEAP_BASE), refused(3));
        shorter.records.truncate(96);
        assert_eq!(verdict(&shorter, 0), (2, 20));
        let client = Shown {
            offset: 0,
            bytes: &shorter.heap[..20],
        };
        assert_eq!(shown(&shorter, HEAP_BASE), Ok(client));
        let mut freed_shorter = shorter.clone();
        assert_eq!(
            freed(&mut freed_shorter, HEAP_BASE, Grant::Sized(12)),
            refused(9)
        );
        assert_eq!(
            freed(&mut freed_shorter, HEAP_BASE, Grant::Sized(20)),
            Ok(())
        );
    }
}

/// Three kernel records with 12 bytes more, read 100 bytes apart, and three userland
/// records with 12 bytes less, read 96 apart: only record 0 stands where it stood.
#[test]
fn dump_read_under_the_other_profile() {
    for form in FORMS {
        let mut image = dump(form);
        let other = form.of(Profile::Userland, Profile::Kernel);
        image.records.resize(form.of(300, 288), 0);
        // Record 0 names buffer 2, whose tag is right, and the head is no record.
        assert_eq!(verdict_under(other, &image, 0), (20, 0));
        assert_eq!(verdict_under(other, &image, 1), (20, 0));
        assert_eq!(verdict_under(other, &image, 2), (23, 0));
        let walked = chain(other, &image.sheet, &image.heap, &image.records);
        let expected = Chain {
            met: vec![],
            ending: Ending::Broken,
        };
        assert_eq!(walked, Ok(expected));
    }
}
