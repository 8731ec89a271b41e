//! "Thread zero is nobody": which records have a thread word of 0, and that only allocate
//! and free care for it, and only for the one they are given.

use crate::image::*;
use crate::made::*;
use reference::*;

/// Thread words of the three records: each some thread, and each 0.
const SOMEBODY: [u32; 3] = [0x7004_a000, 0x7004_b000, 0x7004_c000];
const NOBODY: [u32; 3] = [0, 0, 0];

/// The dump with these thread words in its records.
fn dump_with_threads(form: Form, threads: [u32; 3]) -> Image {
    let mut image = dump(form);
    for (record, thread) in threads.into_iter().enumerate() {
        image.put_record(form.place(record) + THREAD, thread);
    }
    image
}

/// The thread word of each record of three.
fn threads(image: &Image) -> [u32; 3] {
    [0, 1, 2].map(|record| {
        let at = image.form.place(record) + THREAD;
        let bytes: [u8; 4] = image.records[at..at + 4].try_into().unwrap();
        image
            .form
            .pick(u32::from_be_bytes(bytes), u32::from_le_bytes(bytes))
    })
}

/// "A fresh record has thread 0 and we must tell it from a used one."
#[test]
fn fresh_record_is_told_from_a_used_one() {
    for form in LONG_FORMS {
        let mut image = fresh(form, BUFFER_0, form.record(0), 24, 3);
        assert_eq!(threads(&image), [0, 0, 0]);
        assert_eq!(allocated_by(0, &mut image, Grant::Whole), refused(13));
        assert_eq!(threads(&image), [0, 0, 0]);
        assert_eq!(allocated_by(7, &mut image, Grant::Whole), Ok(BUFFER_0));
        assert_eq!(threads(&image), [7, 0, 0]);
        assert_eq!(allocated_by(8, &mut image, Grant::Whole), Ok(BUFFER_1));
        assert_eq!(threads(&image), [7, 8, 0]);
        assert_eq!(freed_by(0, &mut image, BUFFER_0, Grant::Whole), refused(13));
        assert_eq!(threads(&image), [7, 8, 0]);
        assert_eq!(freed_by(9, &mut image, BUFFER_0, Grant::Whole), Ok(()));
        assert_eq!(threads(&image), [9, 8, 0]);
        // Record 0 is the head again.
        assert_eq!(allocated_by(0, &mut image, Grant::Whole), refused(13));
        assert_eq!(allocated_by(7, &mut image, Grant::Whole), Ok(BUFFER_0));
        assert_eq!(threads(&image), [7, 8, 0]);
    }
}

/// Room comes back by no call of thread 0: 13 and not 5, and after it 5 again.
#[test]
fn thread_0_with_all_buffers_out() {
    for form in LONG_FORMS {
        let mut image = fresh(form, BUFFER_0, form.record(0), 24, 3);
        for address in [BUFFER_0, BUFFER_1, BUFFER_2] {
            assert_eq!(allocated_by(1, &mut image, Grant::Whole), Ok(address));
        }
        let full = image.clone();
        assert_eq!(allocated_by(0, &mut image, Grant::Whole), refused(13));
        assert_eq!(allocated_by(1, &mut image, Grant::Whole), refused(5));
        assert_eq!(freed_by(0, &mut image, BUFFER_1, Grant::Whole), refused(13));
        assert_eq!(allocated_by(0, &mut image, Grant::Whole), refused(13));
        assert_eq!(allocated_by(1, &mut image, Grant::Whole), refused(5));
        assert_eq!(image, full);
        assert_eq!(freed_by(1, &mut image, BUFFER_1, Grant::Whole), Ok(()));
        assert_eq!(allocated_by(0, &mut image, Grant::Whole), refused(13));
        assert_eq!(allocated_by(1, &mut image, Grant::Whole), Ok(BUFFER_1));
    }
}

#[test]
fn record_with_thread_0_is_granted_and_freed() {
    for form in FORMS {
        let mut image = dump_with_threads(form, NOBODY);
        assert_eq!(allocated_by(1, &mut image, Grant::Whole), Ok(BUFFER_0));
        let grant = Grant::Sized(dump_size(form));
        assert_eq!(freed_by(2, &mut image, BUFFER_1, grant), Ok(()));
        assert_eq!(threads(&image), [0, 2, 1]);
    }
}

/// A record's thread word helps no call whose own is 0.
#[test]
fn record_of_another_thread_is_refused_to_thread_0() {
    for form in FORMS {
        let mut image = dump_with_threads(form, SOMEBODY);
        assert_eq!(allocated_by(0, &mut image, Grant::Whole), refused(13));
        let grant = Grant::Sized(dump_size(form));
        assert_eq!(freed_by(0, &mut image, BUFFER_1, grant), refused(13));
        assert_eq!(image, dump_with_threads(form, SOMEBODY));
    }
}

#[test]
fn store_and_show_take_a_record_with_thread_0() {
    for form in FORMS {
        let mut image = dump_with_threads(form, NOBODY);
        let mut expected = image.clone();
        let start = form.of(40, 48);
        expected.heap[start + 2] = 0xaa;
        let answer = store(
            form.profile(),
            &image.sheet,
            &mut image.heap,
            &image.records,
            BUFFER_1,
            2,
            &[0xaa],
        );
        assert_eq!(answer, Ok(()));
        assert_eq!(image, expected);
        let answer = show(
            form.profile(),
            &image.sheet,
            &image.heap,
            &image.records,
            BUFFER_1,
        );
        let client = Shown {
            offset: form.of(0, 8),
            bytes: &image.heap[start..60],
        };
        assert_eq!(answer, Ok(client));
    }
}

#[test]
fn records_with_thread_0_are_sound() {
    for form in FORMS {
        let image = dump_with_threads(form, NOBODY);
        let Image {
            sheet,
            heap,
            records,
            ..
        } = &image;
        let expected = [(0, 0), (2, dump_size(form)), (0, 0)];
        assert_eq!(verdicts(&image), expected);

        let walked = chain(form.profile(), sheet, heap, records);
        let expected = Chain {
            met: vec![2, 0],
            ending: Ending::End,
        };
        assert_eq!(walked, Ok(expected));

        assert_eq!(text(&image), form.of(DUMP_REPORT, USER_REPORT));
    }
}

/// Record 1 has the stamp 0xb00. Rows with thread 0 count as others do.
#[test]
fn latest_takes_records_and_rows_with_thread_0() {
    for form in FORMS {
        let image = dump_with_threads(form, NOBODY);
        let answer = |log: &[u8]| {
            latest(
                form.profile(),
                &image.sheet,
                &image.heap,
                &image.records,
                log,
                1,
                0xc00,
            )
        };
        assert_eq!(answer(&[]), Ok(Latest::Record(1)));
        // Ages 0x100 of the record, 0x200 and 0x80 of the rows.
        let log = form.words(&[
            form.record(1),
            0xa00,
            THREAD_WORD,
            1,
            form.record(1),
            0xb80,
            0,
            2,
        ]);
        assert_eq!(answer(&log[..16]), Ok(Latest::Record(1)));
        assert_eq!(answer(&log), Ok(Latest::Row(1)));
        assert_eq!(answer(&log[16..]), Ok(Latest::Row(0)));
    }
}
