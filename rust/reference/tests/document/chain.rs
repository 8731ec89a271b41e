//! The chain's endings and the records it meets, under both profiles.

use crate::image::*;
use reference::{chain, Chain, Ending};

fn expect(image: &Image, met: &[usize], ending: Ending) {
    let expected = Chain {
        met: met.to_vec(),
        ending,
    };
    let answer = chain(
        image.form.profile(),
        &image.sheet,
        &image.heap,
        &image.records,
    );
    assert_eq!(answer, Ok(expected));
}

#[test]
fn dump_chain_meets_record_2_then_record_0() {
    for form in FORMS {
        expect(&dump(form), &[2, 0], Ending::End);
    }
}

#[test]
fn head_0_meets_none() {
    for form in FORMS {
        expect(&dump_with_head(form, 0), &[], Ending::End);
    }
}

#[test]
fn chain_through_every_record_is_no_cycle() {
    for form in FORMS {
        let mut image = dump_with_head(form, form.record(1));
        image.put_record(form.place(1) + NEXT, form.record(2));
        expect(&image, &[1, 2, 0], Ending::End);
    }
}

#[test]
fn head_that_is_no_record_is_broken() {
    for form in FORMS {
        // One before the first, one past the last, inside one, and an address of the heap.
        for head in [
            form.record(0) - form.record_size() as u32,
            form.record(0) + form.record_length() as u32,
            form.record(0) + 4,
            form.record(0) + form.of(100, 96),
            0x70a9_add8,
            form.record(0).swap_bytes(),
            1,
            u32::MAX,
        ] {
            expect(&dump_with_head(form, head), &[], Ending::Broken);
        }
    }
}

#[test]
fn next_word_that_is_no_record_is_broken_after_the_record() {
    for form in FORMS {
        let mut image = dump(form);
        image.put_record(form.place(0) + NEXT, form.record(0) + 48);
        expect(&image, &[2, 0], Ending::Broken);
        image.put_record(form.place(0) + NEXT, form.record(1).swap_bytes());
        expect(&image, &[2, 0], Ending::Broken);
    }
}

#[test]
fn record_naming_itself_is_again_and_counted_once() {
    for form in FORMS {
        let mut image = dump(form);
        image.put_record(form.place(2) + NEXT, form.record(2));
        expect(&image, &[2], Ending::Again(2));
    }
}

#[test]
fn again_names_the_record_met_twice_and_not_the_last() {
    for form in FORMS {
        let mut image = dump(form);
        image.put_record(form.place(0) + NEXT, form.record(2));
        expect(&image, &[2, 0], Ending::Again(2));

        let mut image = dump_with_head(form, form.record(1));
        image.put_record(form.place(1) + NEXT, form.record(2));
        image.put_record(form.place(0) + NEXT, form.record(2));
        expect(&image, &[1, 2, 0], Ending::Again(2));
    }
}
