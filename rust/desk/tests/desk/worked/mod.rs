//! Worked cases: what the command says of the dump with one change each, written by hand from
//! `docs/DESK.md`. In the dump buffers 0 and 2 are free and buffer 1 is out on a grant whose
//! size is coded as 20; record 2 is buffer 0's, record 1 buffer 1's and record 0 buffer 2's; the
//! chain is record 2, then record 0.

mod bytes;
mod latest;
mod places;
mod whole;

use differential::samples::dump;
use differential::{Form, Image, Sequence};

use crate::expected::{open, report_text};
use crate::question::{ask, Question};

const SEED: u64 = 0x11d8_6e3f;

const FIRST: u32 = 0x70a9_add8;
const MIDDLE: u32 = 0x70a9_ae00;
const LAST: u32 = 0x70a9_ae28;

type Change = fn(&mut Image);

/// The dump of a form by a change, with its list, and the uptime at which it is asked.
fn question(form: Form, change: Change, now: Option<u32>) -> Question {
    let mut image = dump(form);
    change(&mut image);
    let has_list = !image.magazines.is_empty();
    let mut question = Question::plain(form.profile(), image.input());
    question.magazines = has_list.then_some(image.magazines);
    question.now = now;
    question
}

/// The report has this part, as the second writing of it has.
fn assert_part(question: &Question, name: &str, part: &str) {
    let mut sequence = Sequence::new(SEED);
    let wanted = format!("\n\n{part}\n");
    let text = report_text(&open(question).expect("the dump is not refused"));
    assert!(text.contains(&wanted), "{wanted}\nis not in\n{text}");
    let text = ask(question, &["report"], name, &mut sequence).stdout_text();
    assert!(text.contains(&wanted), "{wanted}\nis not in\n{text}");
}

fn put_record(image: &mut Image, record: usize, at: usize, word: u32) {
    image.put_record_word(image.record(record) + at, word);
}
