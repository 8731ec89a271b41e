//! The corners of the userland profile, each held to its rule and not to the reference
//! alone: the header, the coded size, and verdict 30.

use combgallop::{Grant, Refusal};
use differential::{Form, KERNEL_FORMS, USER_FORMS};

use crate::corner::{allocate, free, fresh, show, store, Runner};
use crate::counts::Met;

const SEED: u64 = 0x3e81_c5d7;

/// What the two words of a header add up to.
const HEADER_SUM: u32 = 0x3a10_c000;

const REDZONE: u32 = 0xfeed_face;

/// "Requests run from 1 to buffer size less 8; any other size is refusal 6", so a buffer of
/// 8 bytes has none. Some of these would wrap around with the header's 8 bytes.
#[test]
fn requests_that_no_buffer_has_room_for() {
    let mut runner = Runner::new(SEED);
    for form in USER_FORMS {
        for size in [8, 16, 24, 4096] {
            let most = size as u32 - 8;
            let above = (most + 1..most + 20).chain([0x1_0000 + 1, 0x8000_0001]);
            let wrapped = u32::MAX - 20..=u32::MAX;
            for request in above.chain(wrapped).chain([0]) {
                let call = allocate(Grant::Sized(request));
                let (_, outcome) = runner.run(fresh(form, size), &[call]);
                assert_eq!(outcome, Err(Refusal::BadSize), "{request} of {size}");
            }
        }
    }
    let wanted = [Met::Refused("allocate", 6, 0)];
    let title = "userland, requests that are refused";
    runner.counts.finish_in(&USER_FORMS, title, SEED, &wanted);
}

/// "Whole grants have none": the client's bytes are the buffer's, also where there are 8.
#[test]
fn whole_grants_have_no_header() {
    let mut runner = Runner::new(SEED);
    for form in USER_FORMS {
        for size in [8, 24] {
            let mut image = runner.granted(form, size, Grant::Whole);
            for at in 0..8 {
                image.heap[at] = !image.heap[at];
                runner.assert_found(&image, (1, 0), "whole");
            }
            let (image, outcome) = runner.run(image, &[show()]);
            assert_eq!(outcome, Ok(size as u32), "{form:?}, {size}");
            let (image, outcome) = runner.run(image, &[store(0, size)]);
            assert_eq!(outcome, Ok(0), "{form:?}, {size}");
            assert!(image.heap[..size].iter().all(|byte| *byte == 0xbb));
            let (_, outcome) = runner.run(image, &[free(Grant::Whole)]);
            assert_eq!(outcome, Ok(0), "{form:?}, {size}");
        }
    }
}

/// Every lawful request: header, guard and code of request + 8; its client's bytes are those
/// behind the header, and storing them all leaves header and guard. It is given back by the
/// request alone.
#[test]
fn every_lawful_request() {
    let mut runner = Runner::new(SEED);
    for form in USER_FORMS {
        for size in [16, 24, 32, 104] {
            for request in 1..=size as u32 - 8 {
                use_request(&mut runner, form, size, request);
            }
        }
    }
    let wanted = [
        Met::Verdict(2),
        Met::Accepted("show"),
        Met::Refused("store", 10, 0),
        Met::Refused("free", 9, 0),
        Met::Accepted("free"),
    ];
    let title = "userland, every lawful request";
    runner.counts.finish_in(&USER_FORMS, title, SEED, &wanted);
}

fn use_request(runner: &mut Runner, form: Form, size: usize, request: u32) {
    let story = format!("{form:?}, {request} of {size}");
    let image = runner.granted(form, size, Grant::Sized(request));
    let coded_size = request + 8;
    let words = [0, 4, size + 4].map(|at| image.heap_word(at));
    let expected = [coded_size, HEADER_SUM - coded_size, 251 * coded_size + 1];
    assert_eq!(words, expected, "{story}");
    assert_eq!(image.heap[coded_size as usize], 0xbb, "{story}");
    runner.assert_found(&image, (2, request), &story);

    let (image, outcome) = runner.run(image, &[show()]);
    assert_eq!(outcome, Ok(request), "{story}");
    for past in [store(0, request as usize + 1), store(request + 1, 0)] {
        let (_, outcome) = runner.run(image.clone(), &[past]);
        assert_eq!(outcome, Err(Refusal::PastClient), "{story}");
    }
    let mut expected = image.heap.clone();
    expected[8..coded_size as usize].fill(0xbb);
    let (image, outcome) = runner.run(image, &[store(0, request as usize)]);
    assert_eq!(outcome, Ok(0), "{story}");
    assert_eq!(image.heap, expected, "{story}");
    runner.assert_found(&image, (2, request), &story);

    for other in [
        Grant::Sized(coded_size),
        Grant::Sized(request - 1),
        Grant::Sized(request + 1),
        Grant::Whole,
    ] {
        let (_, outcome) = runner.run(image.clone(), &[free(other)]);
        assert_eq!(outcome, Err(Refusal::OtherGrant), "{story}, {other:?}");
    }
    let (image, outcome) = runner.run(image, &[free(Grant::Sized(request))]);
    assert_eq!(outcome, Ok(0), "{story}");
    let sound = fresh(form, size);
    assert_eq!(image.heap, sound.heap, "{story}");
}

/// The guard of the largest request is R0's first byte: 30 comes after 28 there too.
#[test]
fn largest_request() {
    let mut runner = Runner::new(SEED);
    for form in USER_FORMS {
        let image = runner.granted(form, 24, Grant::Sized(16));
        assert_eq!(image.heap[24], 0xbb, "{form:?}");
        for at in 24..28 {
            let mut hurt = image.clone();
            hurt.heap[at] ^= 1;
            hurt.heap[0] ^= 1;
            runner.assert_found(&hurt, (28, at as u32), "redzone");
        }
    }
}

/// "And also when the coded size is below 9", with its guard, whatever the header is.
#[test]
fn coded_sizes_below_9() {
    let mut runner = Runner::new(SEED);
    for form in USER_FORMS {
        let granted = runner.granted(form, 24, Grant::Sized(5));
        for coded_size in 1..=8u32 {
            for has_header in [false, true] {
                let mut image = granted.clone();
                image.put_heap_word(image.r1(0), 251 * coded_size + 1);
                if has_header {
                    image.put_header(0, coded_size);
                }
                image.heap[coded_size as usize] = 0xbb;
                let story = format!("{form:?}, coded size {coded_size}");
                runner.assert_found(&image, (30, 0), &story);
            }
        }
        let mut image = granted;
        image.put_heap_word(image.r1(0), 251 * 9 + 1);
        image.put_header(0, 9);
        image.heap[9] = 0xbb;
        runner.assert_found(&image, (2, 1), "coded size 9");
    }
    finish(&runner, "userland, coded sizes below 9");
}

/// Each byte of both words, to each other value.
#[test]
fn every_byte_of_a_header() {
    let mut runner = Runner::new(SEED);
    for form in USER_FORMS {
        for request in [1, 10, 16] {
            let mut image = runner.granted(form, 24, Grant::Sized(request));
            for at in 0..8 {
                let stood = image.heap[at];
                for difference in 1..=255 {
                    image.heap[at] = stood ^ difference;
                    let story = format!("{form:?}, byte {at} of the header of {request}");
                    runner.assert_found(&image, (30, 0), &story);
                }
                image.heap[at] = stood;
            }
            runner.assert_found(&image, (2, request), "as it was");
        }
    }
    finish(&runner, "userland, every byte of a header");
}

/// Headers that go together in themselves: those of other sizes, and the right one in the
/// other order.
#[test]
fn headers_of_other_sizes() {
    let mut runner = Runner::new(SEED);
    for form in USER_FORMS {
        let granted = runner.granted(form, 24, Grant::Sized(10));
        for coded_size in (0..40).chain([18 + 0x100, 18 + 0x1_0000, u32::MAX]) {
            let mut image = granted.clone();
            image.put_header(0, coded_size);
            let verdict = if coded_size == 18 { (2, 10) } else { (30, 0) };
            runner.assert_found(&image, verdict, "header of another size");
        }
        let mut image = granted;
        image.heap[..4].reverse();
        image.heap[4..8].reverse();
        runner.assert_found(&image, (30, 0), "header in the other order");
    }
    finish(&runner, "userland, headers of other sizes");
}

/// "Verdict 30 comes after 28": with a wrong header the code, the guard and the redzone are
/// judged before it.
#[test]
fn header_is_judged_last() {
    let mut runner = Runner::new(SEED);
    for form in USER_FORMS {
        let mut image = runner.granted(form, 24, Grant::Sized(10));
        image.heap[0] ^= 0x80;
        runner.assert_found(&image, (30, 0), "header alone");
        let mut hurt = image.clone();
        hurt.heap[26] ^= 1;
        runner.assert_found(&hurt, (28, 26), "header and redzone");
        hurt.heap[18] ^= 1;
        runner.assert_found(&hurt, (28, 18), "header, redzone and guard");
        hurt.put_heap_word(hurt.r1(0), 251 * 18 + 2);
        runner.assert_found(&hurt, (27, 0), "header, redzone, guard and code");
        let mut whole = image;
        whole.put_heap_word(whole.r1(0), REDZONE);
        runner.assert_found(&whole, (1, 0), "whole, so that it has no header");
    }
    finish(&runner, "userland, the header is judged last");
}

/// Under the kernel profile the first bytes are the client's, and a coded size of 1 to 8 is
/// as good as any.
#[test]
fn kernel_images_have_no_header() {
    let mut runner = Runner::new(SEED);
    for form in KERNEL_FORMS {
        for request in 1..=9 {
            let mut image = runner.granted(form, 24, Grant::Sized(request));
            runner.assert_found(&image, (2, request), "granted");
            for at in 0..(request as usize).min(8) {
                image.heap[at] ^= 0xff;
                runner.assert_found(&image, (2, request), "a client's byte");
            }
        }
    }
}

/// Verdict 30 was met, and every call was refused by it.
fn finish(runner: &Runner, title: &str) {
    runner.finish_refused(&USER_FORMS, title, &[30]);
}
