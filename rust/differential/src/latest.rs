//! Questions after the latest transaction, and what an answer was chosen from.

use reference::Latest;

use crate::image::{stamp_low, RECORD_BASE_BODY};
use crate::samples::dump;
use crate::words::{sheet_word, word};
use crate::{Form, Image, Sequence};

/// What the youngest can be, and what it can be chosen from.
pub const CHOICES: [&str; 5] = [
    "row",
    "record",
    "tie of rows",
    "tie of row and record",
    "greater stamp that is older",
];

/// Where the uptime stands in a row.
const UPTIME: usize = 4;

/// Which of the choices an answer was.
pub fn choices_met(image: &Image, found: Latest) -> Vec<&'static str> {
    let (chosen, uptimes, stamp) = candidates(image, found);
    let equals = uptimes.iter().filter(|&&uptime| uptime == chosen).count();
    let are_met = [
        matches!(found, Latest::Row(_)),
        matches!(found, Latest::Record(_)),
        equals > 1,
        equals > 0 && stamp == chosen,
        uptimes.iter().any(|&uptime| uptime > chosen) || stamp > chosen,
    ];
    let choices = CHOICES.into_iter().zip(are_met);
    choices
        .filter_map(|(choice, is_met)| is_met.then_some(choice))
        .collect()
}

/// The stamp of what was chosen; those of the rows that name the record; the record's.
/// All are read in the order that the sheet has now, under the image's profile.
fn candidates(image: &Image, found: Latest) -> (u32, Vec<u32>, u32) {
    let order = image.read_form().order();
    let base = sheet_word(&image.sheet, RECORD_BASE_BODY);
    let named = match found {
        Latest::Row(row) => word(order, &image.log, 16 * row),
        Latest::Record(record) => base + image.record(record) as u32,
    };
    let stamp_at = (named - base) as usize + stamp_low(order);
    let stamp = word(order, &image.records, stamp_at);
    let rows = image.log.chunks_exact(16);
    let rows = rows.filter(|row| word(order, row, 0) == named);
    let chosen = match found {
        Latest::Row(row) => word(order, &image.log, 16 * row + UPTIME),
        Latest::Record(_) => stamp,
    };
    let uptimes = rows.map(|row| word(order, row, UPTIME));
    (chosen, uptimes.collect(), stamp)
}

/// Mostly a buffer's index, now and then the first too large, or any.
pub fn some_index(image: &Image, sequence: &mut Sequence) -> u32 {
    let count = image.shape.count;
    match sequence.below(16) {
        0 => count as u32,
        1 => sequence.word(),
        2 => sequence.pick(&[511, 512, 65_536, 0x8000_0000, u32::MAX]),
        _ => sequence.below(count) as u32,
    }
}

/// The time of a transaction, the next to it, or any.
pub fn some_now(image: &Image, sequence: &mut Sequence) -> u32 {
    let time = sequence.pick(&image.times);
    let any = sequence.word();
    sequence.pick(&[time, time, time.wrapping_add(1), time.wrapping_sub(1), any])
}

/// In each of these forms, the dump with a log of two rows, and an uptime now, for each way
/// that the stamp of record 1, the two rows and now can stand to each other and to the
/// wrap-around.
pub fn each_order_of_uptimes(forms: &[Form], mut see: impl FnMut(&Image, u32)) {
    for &form in forms {
        each_choice_of_uptimes(form, &mut see);
    }
}

fn each_choice_of_uptimes(form: Form, see: &mut impl FnMut(&Image, u32)) {
    const TIMES: [u32; 7] = [0, 1, 2, 0x7fff_ffff, 0x8000_0000, 0xffff_fffe, 0xffff_ffff];
    let mut image = dump(form);
    let (record, other_record) = (image.record_address(1), image.record_address(2));
    let stamp_at = image.record(1) + stamp_low(form.order());
    image.log = vec![0; 32];
    image.put_log_word(0, record);
    for choice in 0..2 * 7 * 7 * 7 * 7 {
        let time = |place: u32| TIMES[choice / 2 / 7usize.pow(place) % 7];
        let second_named = [record, other_record][choice % 2];
        image.put_record_word(stamp_at, time(0));
        image.put_log_word(UPTIME, time(1));
        image.put_log_word(16, second_named);
        image.put_log_word(16 + UPTIME, time(2));
        see(&image, time(3));
    }
}
