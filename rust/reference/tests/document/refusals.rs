//! "Order: 1, 2, 3 always", for every call that reads a sheet, under both profiles.

use crate::image::*;
use reference::*;

/// The refusal number of each call on an image, each call having a later refusal too (of
/// a magazine list, a word that is no buffer's start), and at last those of allocate and
/// free by thread 0, with that refusal alone and with another after it; every byte is as
/// before.
fn numbers(image: &Image) -> [u8; 12] {
    let profile = image.form.profile();
    let grant = Grant::Sized(dump_size(image.form));
    let mut changed = image.clone();
    let Image {
        sheet,
        heap,
        records,
        ..
    } = &mut changed;
    let answers = [
        chain(profile, sheet, heap, records).map(|_| ()),
        inspect(profile, sheet, heap, records, &[1], &mut []).map(|_| ()),
        latest(profile, sheet, heap, records, &[0], u32::MAX, 0).map(|_| ()),
        report(profile, sheet, heap, records, &[1], &[0], &mut []).map(|_| ()),
        allocate(profile, sheet, heap, records, Grant::Sized(0), 1, 1).map(|_| ()),
        free(profile, sheet, heap, records, 1, Grant::Whole, 1, 1),
        store(profile, sheet, heap, records, 1, 0, &[1]),
        show(profile, sheet, heap, records, 1).map(|_| ()),
        allocate(profile, sheet, heap, records, Grant::Whole, 1, 0).map(|_| ()),
        allocate(profile, sheet, heap, records, Grant::Sized(0), 1, 0).map(|_| ()),
        free(profile, sheet, heap, records, BUFFER_1, grant, 1, 0),
        free(profile, sheet, heap, records, 1, Grant::Whole, 1, 0),
    ];
    assert_eq!(changed, *image);
    answers.map(|answer| {
        let refusal = answer.unwrap_err();
        assert_eq!(refusal.detail, 0);
        refusal.number
    })
}

#[test]
fn refusal_1_comes_first() {
    for form in FORMS {
        let mut image = dump(form);
        image.sheet[0] = 9;
        put_sheet(&mut image.sheet, 10, 0);
        image.heap.clear();
        assert_eq!(numbers(&image), [1; 12]);
    }
}

#[test]
fn refusal_2_comes_before_3() {
    for form in FORMS {
        let mut image = dump(form);
        put_sheet(&mut image.sheet, 10, 0);
        image.heap.clear();
        assert_eq!(numbers(&image), [2; 12]);
    }
}

#[test]
fn refusal_2_by_the_value_of_tag_9_comes_before_3() {
    for form in LONG_FORMS {
        for value in [2, 3, 0x80, 255] {
            let mut image = dump(form);
            image.sheet[51] = value;
            assert_eq!(numbers(&image), [2; 12]);
            image.heap.clear();
            assert_eq!(numbers(&image), [2; 12]);
        }
    }
}

#[test]
fn refusal_1_by_neither_form() {
    for form in FORMS {
        for length in [0, 47, 49, 51, 53] {
            let mut image = dump(form);
            image.sheet.resize(length, 0);
            assert_eq!(numbers(&image), [1; 12]);
        }
    }
    for field in [[10, 0, 1, 0], [9, 0, 2, 0], [9, 1, 1, 1], [0, 0, 0, 0]] {
        for form in [Form::Short, Form::UserShort] {
            let mut image = dump(form);
            image.sheet.extend(field);
            assert_eq!(numbers(&image), [1; 12]);
        }
    }
}

#[test]
fn refusal_3_comes_before_the_rest() {
    for form in FORMS {
        for change in [-1, 1] {
            let mut image = dump(form);
            image.heap.resize(120usize.wrapping_add_signed(change), 0);
            assert_eq!(numbers(&image), [3; 12]);

            let mut image = dump(form);
            let length = form.record_length().wrapping_add_signed(change);
            image.records.resize(length, 0);
            assert_eq!(numbers(&image), [3; 12]);
        }
    }
}

/// The records of each profile are too short or too long for the other: refusal 3.
#[test]
fn image_read_under_the_other_profile() {
    let others = [
        Form::UserShort,
        Form::UserHigh,
        Form::UserLow,
        Form::Short,
        Form::High,
        Form::Low,
    ];
    for (form, other) in FORMS.into_iter().zip(others) {
        let mut image = dump(form);
        image.form = other;
        assert_eq!(numbers(&image), [3; 12]);
    }
}
