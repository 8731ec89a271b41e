//! Latest transactions.

use differential::{Form, Image, Sequence};

use super::{put_record, question, SEED};
use crate::question::ask;

/// Where the words stand in a record of an image with the high byte first.
const STAMP_HIGH: usize = 16;
const STAMP_LOW: usize = 20;
const THREAD: usize = 24;

/// All three buffers are hurt. The stamp of buffer 1 is wide; buffers 0 and 2 have a row of the
/// log each, stamped 0xfffffff0, and buffer 0's record is stamped 8.
fn change(image: &mut Image) {
    put_record(image, 1, STAMP_HIGH, 1);
    put_record(image, 2, STAMP_LOW, 8);
    put_record(image, 2, THREAD, 0x4b);
    image.heap[0] = 0;
    image.heap[60] = 0;
    image.heap[103] = 0;
    image.log = vec![0; 32];
    for (at, record, kind) in [(0, 2, 1), (16, 0, 7)] {
        image.put_log_word(at, image.record_address(record));
        image.put_log_word(at + 4, 0xffff_fff0);
        image.put_log_word(at + 8, 0xdead_0000);
        image.put_log_word(at + 12, kind);
    }
}

fn assert_lines(now: Option<u32>, name: &str, wanted: &[&str]) {
    let mut sequence = Sequence::new(SEED);
    let question = question(Form::High, change, now);
    let text = ask(&question, &["report"], name, &mut sequence).stdout_text();
    let lines = text.lines();
    let lines = lines.filter(|line| {
        ["  latest ", "  left "]
            .iter()
            .any(|at| line.starts_with(at))
    });
    assert_eq!(lines.collect::<Vec<_>>(), wanted);
}

/// At 0x10 the rows are 32 ms old, and the records 8 and 16.
#[test]
fn past_the_wrap() {
    let wanted = [
        "  latest     thread 0x4b, uptime 8 ms, 8 ms ago, record 2",
        "  left       none, it is the first buffer",
        "  latest     refused 12, wide_stamp",
        "  left       buffer 0 at 0x70a9add8: fault 25, bad_fill at offset 0; \
         latest thread 0x4b, uptime 8 ms, 8 ms ago, record 2",
        "  latest     thread 0x0 (nobody), uptime 0 ms, 16 ms ago, record 0",
        "  left       buffer 1 at 0x70a9ae00: fault 28, overrun at offset 20; \
         latest refused 12, wide_stamp",
    ];
    assert_lines(Some(0x10), "past_the_wrap", &wanted);
}

/// Without `--now` the largest uptime is asked for, at which the rows are the younger.
#[test]
fn without_now() {
    let wanted = [
        "  latest     thread 0xdead0000, uptime 4294967280 ms, allocate, row 0",
        "  left       none, it is the first buffer",
        "  latest     refused 12, wide_stamp",
        "  left       buffer 0 at 0x70a9add8: fault 25, bad_fill at offset 0; \
         latest thread 0xdead0000, uptime 4294967280 ms, allocate, row 0",
        "  latest     thread 0xdead0000, uptime 4294967280 ms, kind 7, row 1",
        "  left       buffer 1 at 0x70a9ae00: fault 28, overrun at offset 20; \
         latest refused 12, wide_stamp",
    ];
    assert_lines(None, "without_now", &wanted);
}
