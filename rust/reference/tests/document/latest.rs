//! The latest transaction: ages, ties and refusals, in both orders and under both
//! profiles.

use crate::image::*;
use reference::{latest, Latest, Refusal};

/// The latest transaction of a buffer of the dump, whose record 1 has the stamp 8.
fn latest_of(form: Form, log: &[[u32; 4]], index: u32, now: u32) -> Result<Latest, Refusal> {
    let mut image = dump(form);
    image.put_stamp(form.place(1), 8);
    let log = form.words(log.as_flattened());
    latest(
        image.form.profile(),
        &image.sheet,
        &image.heap,
        &image.records,
        &log,
        index,
        now,
    )
}

#[test]
fn without_rows_the_record_is_the_latest() {
    for form in FORMS {
        assert_eq!(latest_of(form, &[], 0, 0), Ok(Latest::Record(2)));
        assert_eq!(latest_of(form, &[], 1, 0), Ok(Latest::Record(1)));
        assert_eq!(latest_of(form, &[], 2, 0), Ok(Latest::Record(0)));
    }
}

#[test]
fn rows_of_other_records_do_not_count() {
    for form in FORMS {
        let log = [
            [form.record(0), 100, 1, 1],
            [form.record(2), 100, 1, 1],
            [form.record(1) + 4, 100, 1, 1],
            [0, 100, 1, 1],
        ];
        assert_eq!(latest_of(form, &log, 1, 100), Ok(Latest::Record(1)));
        assert_eq!(latest_of(form, &log, 2, 4000), Ok(Latest::Record(0)));
        assert_eq!(latest_of(form, &log, 2, 100), Ok(Latest::Row(0)));
    }
}

#[test]
fn smallest_age_wins() {
    for form in FORMS {
        // Ages at 100: the record 92; the rows 93, 10, 50.
        let log = [
            [form.record(1), 7, 1, 1],
            [form.record(1), 90, 1, 2],
            [form.record(1), 50, 1, 1],
        ];
        assert_eq!(latest_of(form, &log, 1, 100), Ok(Latest::Row(1)));
        assert_eq!(latest_of(form, &log[..1], 1, 100), Ok(Latest::Record(1)));
    }
}

#[test]
fn p11_ages_across_the_wrap() {
    for form in FORMS {
        // At 0x10 the stamp 0xfffffff0 has age 32 and the stamp 8 has age 8.
        let log = [[form.record(1), 0xffff_fff0, 1, 1]];
        assert_eq!(latest_of(form, &log, 1, 0x10), Ok(Latest::Record(1)));

        let log = [
            [form.record(2), 0xffff_fff0, 1, 1],
            [form.record(2), 8, 1, 1],
        ];
        assert_eq!(latest_of(form, &log, 0, 0x10), Ok(Latest::Row(1)));
        let log = [
            [form.record(2), 8, 1, 1],
            [form.record(2), 0xffff_fff0, 1, 1],
        ];
        assert_eq!(latest_of(form, &log, 0, 0x10), Ok(Latest::Row(0)));
    }
}

#[test]
fn stamp_just_after_now_is_the_oldest() {
    for form in FORMS {
        // At 8 the record has age 0 and the stamp 9 has age 2^32 - 1; at 7 the record
        // has age 2^32 - 1 and the stamp 9 has age 2^32 - 2.
        let log = [[form.record(1), 9, 1, 1]];
        assert_eq!(latest_of(form, &log, 1, 8), Ok(Latest::Record(1)));
        assert_eq!(latest_of(form, &log, 1, 7), Ok(Latest::Row(0)));
    }
}

#[test]
fn on_a_tie_a_row_wins_over_the_record() {
    for form in FORMS {
        assert_eq!(
            latest_of(form, &[[form.record(1), 8, 1, 1]], 1, 100),
            Ok(Latest::Row(0))
        );
    }
}

#[test]
fn on_a_tie_a_later_row_wins_over_an_earlier() {
    for form in FORMS {
        let log = [
            [form.record(1), 90, 1, 1],
            [form.record(1), 90, 1, 2],
            [form.record(2), 90, 1, 1],
            [form.record(1), 89, 1, 1],
        ];
        assert_eq!(latest_of(form, &log, 1, 100), Ok(Latest::Row(1)));
    }
}

#[test]
fn rows_of_any_kind_count() {
    for form in FORMS {
        for kind in [0, 1, 2, 3, u32::MAX] {
            let log = [[form.record(1), 90, 1, kind]];
            assert_eq!(latest_of(form, &log, 1, 100), Ok(Latest::Row(0)));
        }
    }
}

#[test]
fn log_of_1024_rows_is_read_to_its_end() {
    for form in FORMS {
        let log = [[form.record(1), 90, 1, 1]; 1024];
        assert_eq!(latest_of(form, &log, 1, 100), Ok(Latest::Row(1023)));
    }
}

#[test]
fn refusal_3_log_of_wrong_length() {
    for form in FORMS {
        let image = dump(form);
        for length in [1, 15, 17, 16_383, 16_385, 16_400] {
            let log = vec![0; length];
            let answer = latest(
                image.form.profile(),
                &image.sheet,
                &image.heap,
                &image.records,
                &log,
                3,
                0,
            );
            assert_eq!(answer, refused(3), "{length}");
        }
    }
}

#[test]
fn refusal_4_index_not_below_n() {
    for form in FORMS {
        for index in [3, 4, u32::MAX] {
            assert_eq!(latest_of(form, &[], index, 0), refused(4));
        }
    }
}

#[test]
fn refusal_7_with_20_not_one_record_names_the_buffer() {
    for form in FORMS {
        let mut image = dump(form);
        image.put_record(form.place(0) + ADDRESS, BUFFER_1);
        image.put_stamp(form.place(0), 1 << 32);
        image.put_stamp(form.place(1), 1 << 32);
        let answer = |index| {
            latest(
                image.form.profile(),
                &image.sheet,
                &image.heap,
                &image.records,
                &[],
                index,
                0,
            )
        };
        assert_eq!(answer(0), Ok(Latest::Record(2)));
        assert_eq!(answer(1), damaged(20));
        assert_eq!(answer(2), damaged(20));
    }
}

#[test]
fn refusal_12_stamp_with_a_high_half() {
    for form in FORMS {
        for stamp in [1 << 32, 1 << 63, (1 << 32) + 5, u64::MAX] {
            let mut image = dump(form);
            image.put_stamp(form.place(1), stamp);
            let answer = |index| {
                latest(
                    image.form.profile(),
                    &image.sheet,
                    &image.heap,
                    &image.records,
                    &[],
                    index,
                    0,
                )
            };
            assert_eq!(answer(0), Ok(Latest::Record(2)));
            assert_eq!(answer(1), refused(12));
        }
    }
}

#[test]
fn stamp_with_every_low_bit_has_no_high_half() {
    for form in FORMS {
        let mut image = dump(form);
        image.put_stamp(form.place(1), 0xffff_ffff);
        let answer = latest(
            image.form.profile(),
            &image.sheet,
            &image.heap,
            &image.records,
            &[],
            1,
            0,
        );
        assert_eq!(answer, Ok(Latest::Record(1)));
    }
}

/// The high half stands in bytes 16 to 19 where the high byte stands first, and in
/// bytes 20 to 23 where the low byte does.
#[test]
fn refusal_12_by_each_byte_of_the_stamp() {
    for form in FORMS {
        for at in 16..24 {
            let mut image = dump(form);
            image.put_stamp(form.place(1), 0);
            image.records[form.place(1) + at] = 1;
            let answer = latest(
                image.form.profile(),
                &image.sheet,
                &image.heap,
                &image.records,
                &[],
                1,
                0,
            );
            let is_high = form.pick(at < 20, at >= 20);
            let expected = if is_high {
                refused(12)
            } else {
                Ok(Latest::Record(1))
            };
            assert_eq!(answer, expected, "{form:?} {at}");
        }
    }
}

/// A record stamped 0x0100 and a row of 0x0010 at 0x0110: ages 0x10 and 0x100. Read
/// the other way round, the stamps are 0x00010000 and 0x10000000 and the row is the
/// later.
#[test]
fn stamp_and_uptime_are_read_in_the_order() {
    for form in FORMS {
        let mut image = dump(form);
        image.put_stamp(form.place(1), 0x0100);
        let log = form.words(&[form.record(1), 0x0010, 1, 1]);
        let answer = latest(
            image.form.profile(),
            &image.sheet,
            &image.heap,
            &image.records,
            &log,
            1,
            0x0110,
        );
        assert_eq!(answer, Ok(Latest::Record(1)));

        image.put_stamp(form.place(1), 0x0010);
        let log = form.words(&[form.record(1), 0x0100, 1, 1]);
        let answer = latest(
            image.form.profile(),
            &image.sheet,
            &image.heap,
            &image.records,
            &log,
            1,
            0x0110,
        );
        assert_eq!(answer, Ok(Latest::Row(0)));
    }
}

#[test]
fn row_naming_the_record_in_the_other_order_does_not_count() {
    for form in FORMS {
        let image = dump(form);
        let log = form.words(&[form.record(1).swap_bytes(), 100, 1, 1]);
        let answer = latest(
            image.form.profile(),
            &image.sheet,
            &image.heap,
            &image.records,
            &log,
            1,
            100,
        );
        assert_eq!(answer, Ok(Latest::Record(1)));
    }
}
