//! Words that are no size code: "27 wrong remainder, 31 size zero with a right remainder, 32
//! above buffer size with a right remainder, tried in that order". Each is put together from
//! its quotient and its remainder by 251, so that no test here divides.

use combgallop::{Grant, Refusal};
use differential::{Form, Image, FORMS, USER_FORMS};

use crate::corner::{allocate, fresh_of, Runner};
use crate::counts::Met;
use crate::{report, survey};

const SEED: u64 = 0x64d2_901b;

const SIZES: [u32; 6] = [8, 16, 24, 112, 248, 4096];

/// The right one, and some that are not.
const SOME_REMAINDERS: [u32; 7] = [0, 1, 2, 3, 125, 249, 250];

/// The largest quotient of a word, and its largest remainder: 251 x 17,111,423 + 122 is
/// 0xffffffff.
const MOST: (u32, u32) = (17_111_423, 122);

/// Quotients about each end: 0, the header's 8 bytes, the buffer's size and 8 more, sizes
/// that would be lawful if fewer of their bits were read, and the largest there is.
fn quotients(size: u32) -> Vec<u32> {
    let near = [0, 1, 2, 7, 8, 9, size - 1, size, size + 1];
    let past = [size + 7, size + 8, size + 9, 2 * size, 4097, 4105];
    let wrapped = [0x100, 0x100 + size, 0x1_0000, 0x1_0000 + size, 0x80_0000];
    [&near[..], &past, &wrapped, &[MOST.0 - 1, MOST.0]].concat()
}

/// The word of a quotient and a remainder, none where there is no such word.
fn word_of(quotient: u32, remainder: u32) -> Option<u32> {
    ((quotient, remainder) <= MOST).then(|| 251 * quotient + remainder)
}

/// The verdict on that word, none where it is the code of a size.
fn expected(quotient: u32, remainder: u32, size: u32) -> Option<u32> {
    match (quotient, remainder) {
        (_, remainder) if remainder != 1 => Some(27),
        (0, _) => Some(31),
        (quotient, _) if quotient > size => Some(32),
        _ => None,
    }
}

/// The first buffer, whatever its size is, with this R1; the rest of its chunk is as a whole
/// grant leaves it.
fn with_code(runner: &mut Runner, form: Form, size: u32, code: u32) -> Image {
    let mut image = runner.granted(form, size as usize, Grant::Whole);
    image.put_heap_word(image.r1(0), code);
    image
}

/// The same with every byte before R1 hurt: header, guard and R0, wherever they are.
fn ruined(image: &Image) -> Image {
    let mut image = image.clone();
    let end = image.r1(0);
    image.heap[..end].fill(0x55);
    image
}

fn judge(runner: &mut Runner, form: Form, size: u32, quotient: u32, remainder: u32) {
    let Some(code) = word_of(quotient, remainder) else {
        return;
    };
    let image = with_code(runner, form, size, code);
    let story = format!("{form:?}, size {size}, 251 x {quotient} + {remainder}");
    match expected(quotient, remainder, size) {
        Some(number) => {
            runner.assert_found(&image, (number, 0), &story);
            runner.assert_found(&ruined(&image), (number, 0), &story);
        }
        // A whole grant has no guard, so that of this size is missing.
        None => runner.assert_found(&image, (28, quotient), &story),
    }
}

/// Words of these quotients and remainders, in buffers of these sizes.
fn judge_all(title: &str, sizes: &[u32], quotients: impl Fn(u32) -> Vec<u32>, remainders: &[u32]) {
    let mut runner = Runner::new(SEED);
    for form in FORMS {
        for &size in sizes {
            for quotient in quotients(size) {
                for &remainder in remainders {
                    judge(&mut runner, form, size, quotient, remainder);
                }
            }
        }
    }
    runner.finish_refused(&FORMS, title, &[27, 31, 32, 28]);
}

/// Every way to be bad, at every end, before 28 and 30, and as the detail of every call.
#[test]
fn every_end() {
    judge_all("size codes, every end", &SIZES, quotients, &SOME_REMAINDERS);
}

/// Of two buffer sizes, every remainder of the first quotients, of those at the buffer's size
/// and of the last two, up to the last word there is.
#[test]
fn every_remainder() {
    let ends = |size| vec![0, 1, size, size + 1, MOST.0 - 1, MOST.0];
    let remainders: Vec<u32> = (0..251).collect();
    judge_all("size codes, every remainder", &[8, 24], ends, &remainders);
}

/// Any word with a right remainder, and the words beside it.
#[test]
fn any_quotient() {
    let mut runner = Runner::new(SEED);
    for form in FORMS {
        for _ in 0..300 {
            let quotient = runner.sequence.below(MOST.0 as usize) as u32;
            for remainder in [0, 1, 2] {
                judge(&mut runner, form, 4096, quotient, remainder);
            }
        }
    }
    runner.finish_refused(&FORMS, "size codes, any quotient", &[27, 32]);
}

/// In userland "the coded size": one above the buffer's is 32, though the request would fit,
/// and one of 1 to 8, of which nothing is left for the client, is none of the three.
#[test]
fn coded_sizes_in_userland() {
    let mut runner = Runner::new(SEED);
    for form in USER_FORMS {
        for size in SIZES {
            for coded_size in size + 1..=size + 8 {
                let mut image = with_code(&mut runner, form, size, 251 * coded_size + 1);
                image.put_header(0, coded_size);
                runner.assert_found(&image, (32, 0), "the request fits");
            }
            // In a buffer of 8 bytes the last guard is R0's first byte.
            for coded_size in 1..=8 {
                let mut image = with_code(&mut runner, form, size, 251 * coded_size + 1);
                image.put_header(0, coded_size);
                image.heap[coded_size as usize] = 0xbb;
                runner.assert_found(&image, (30, 0), "no byte for the client");
            }
            let mut image = with_code(&mut runner, form, size, 1);
            image.put_header(0, 0);
            runner.assert_found(&image, (31, 0), "the header of size 0");
        }
    }
    runner.finish_refused(&USER_FORMS, "size codes, userland", &[30, 31, 32]);
}

/// What is wrong with record, tag and chain comes before the code, and in a free buffer R1
/// is the redzone's.
#[test]
fn earlier_rules() {
    let mut runner = Runner::new(SEED);
    for form in FORMS {
        for code in [251 * 5 + 2, 1, 251 * 25 + 1] {
            judge_earlier(&mut runner, form, code);
        }
    }
    let wanted = [20, 21, 22, 24, 26].map(Met::Verdict);
    let title = "size codes, earlier rules";
    runner.counts.finish(title, SEED, &wanted);
}

fn judge_earlier(runner: &mut Runner, form: Form, code: u32) {
    let image = with_code(runner, form, 24, code);
    let own = image.record(0);
    let mut unnamed = image.clone();
    unnamed.put_record_word(own + 4, 0);
    runner.assert_judged(&unnamed, (20, 0), "no record names it");
    let mut tagged = image.clone();
    tagged.put_heap_word(tagged.t1(0), 0);
    runner.assert_judged(&tagged, (21, 0), "neither pattern");
    let mut again = image.clone();
    again.put_head(again.record_address(0));
    again.put_record_word(own, again.record_address(0));
    runner.assert_judged(&again, (22, 0), "the chain comes back to it");
    let mut met = image;
    met.put_head(met.record_address(0));
    runner.assert_judged(&met, (24, 0), "on the chain");
    let mut free = fresh_of(form, 24, 2);
    free.put_heap_word(free.r1(0), code);
    let first_wrong = first_byte_off(&free);
    runner.assert_judged(&free, (26, first_wrong), "free");
}

/// The offset of the first byte of a free buffer's R1 that is not the redzone's.
fn first_byte_off(image: &Image) -> u32 {
    let sound = fresh_of(image.form, image.shape.size, image.shape.count);
    let pairs = image.heap.iter().zip(&sound.heap);
    let first = pairs
        .into_iter()
        .position(|(found, wanted)| found != wanted);
    first.expect("a byte that differs") as u32
}

/// "`I fault V`": the three have no offset, and each is counted.
#[test]
fn lines_of_the_report() {
    let mut runner = Runner::new(SEED);
    let text = "heap report 1\n0 fault 27\n1 fault 31\n2 fault 32\nchain 0 end\nfaults 3\n";
    for form in FORMS {
        let calls = [Grant::Whole; 3].map(allocate);
        let (mut image, outcome) = runner.run(fresh_of(form, 24, 3), &calls);
        assert!(outcome.is_ok(), "{form:?}");
        for (buffer, code) in [251 * 5 + 2, 1, 251 * 25 + 1].into_iter().enumerate() {
            image.put_heap_word(image.r1(buffer), code);
        }
        for room in [text.len(), text.len() + 9] {
            let found = report::compare(&image, room, &mut runner.sequence, &image);
            assert_eq!(found.as_deref(), Ok(text), "{form:?}, room {room}");
        }
        let short = report::compare(&image, text.len() - 1, &mut runner.sequence, &image);
        assert_eq!(short.map_err(|refusal| refusal.number), Err(11), "{form:?}");
        let room = survey::Room { rows: 9, chain: 3 };
        let surveyed = survey::compare(&image, room, &mut runner.sequence, &image);
        survey::note(&mut runner.counts, &image, room, surveyed);
    }
    let wanted = [27, 31, 32].map(Met::Verdict);
    runner
        .counts
        .finish("size codes, the report", SEED, &wanted);
}

/// A buffer beside the hurt one is granted, used and given back as ever.
#[test]
fn other_buffers() {
    let mut runner = Runner::new(SEED);
    for form in FORMS {
        for code in [251 * 5 + 2, 1, 251 * 25 + 1] {
            let image = with_code(&mut runner, form, 24, code);
            let (image, outcome) = runner.run(image, &[allocate(Grant::Sized(7))]);
            assert_eq!(outcome, Ok(0x1000 + 40), "{form:?}, {code}");
            let (_, outcome) = runner.run(image, &[allocate(Grant::Sized(7))]);
            assert_eq!(outcome, Err(Refusal::NoRoom), "{form:?}, {code}");
        }
    }
    let wanted = [Met::Accepted("allocate"), Met::Refused("allocate", 5, 0)];
    runner
        .counts
        .finish("size codes, other buffers", SEED, &wanted);
}
