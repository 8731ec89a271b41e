//! What magazine lists came to, so that no rule on them goes untested unnoticed.

use differential::magazines::names;
use differential::Image;
use reference::{chain, Refusal};

use crate::counts::{Counts, Met};

const FREE_TAG: u32 = 0xf4ee_f4ee;

/// The verdicts there are on buffers that are listed once, and twice or more.
const ONCE: [u32; 7] = [3, 20, 21, 22, 24, 25, 26];
const TWICE: [u32; 3] = [20, 21, 22];

/// What refuses a list, and what else is wrong with the call.
const TOO_LONG: Met = Met::Drawn("list too long alone");
const TOO_LONG_NO_START: Met = Met::Drawn("list too long, with a word that is no start");
const TOO_LONG_SHORT: Met = Met::Drawn("list too long, room too short");
const AREAS_NO_START: Met = Met::Drawn("sheet or areas wrong, with a word that is no start");
const NO_START: Met = Met::Drawn("word that is no start alone");
const NO_START_SHORT: Met = Met::Drawn("word that is no start, room too short");
const LOG_NO_START: Met = Met::Drawn("log alone wrong, with a word that is no start");

/// Why lists are refused by a call that tests no log.
pub const CAUSES: [Met; 6] = [
    TOO_LONG,
    TOO_LONG_NO_START,
    TOO_LONG_SHORT,
    AREAS_NO_START,
    NO_START,
    NO_START_SHORT,
];

/// And by one that does.
pub const LOG_CAUSES: [Met; 1] = [LOG_NO_START];

/// All that lists can come to: every kind; every verdict on a listed buffer; every pattern, on
/// and off the chain, not listed, once, and more often.
pub fn wanted() -> Vec<Met> {
    let once = ONCE.map(|number| Met::Listed(1, number));
    let twice = TWICE.map(|number| Met::Listed(2, number));
    let stands = ["free", "allocated"].into_iter().flat_map(|pattern| {
        let states = [true, false].into_iter();
        states.flat_map(move |is_met| (0..3).map(move |times| Met::Stands(pattern, is_met, times)))
    });
    let results = once.into_iter().chain(twice).chain(stands);
    names().map(Met::List).chain(results).collect()
}

/// How often each buffer is listed, by the shape that the image was made with.
fn listings(image: &Image) -> Vec<usize> {
    let mut times = vec![0; image.shape.count];
    for &word in &image.magazines {
        if let Some(buffer) = image.shape.buffer_at(word) {
            times[buffer] += 1;
        }
    }
    times
}

/// The pattern of a buffer, in the order that the sheet says.
fn pattern(image: &Image, buffer: usize) -> &'static str {
    let is_turned = image.read_form().order() != image.order();
    let tag = match image.tag(buffer) {
        tag if is_turned => tag.swap_bytes(),
        tag => tag,
    };
    match tag {
        FREE_TAG => "free",
        _ => "allocated",
    }
}

/// Notes the verdicts of listed buffers, and how those stand whose tag is right.
pub fn note_buffers(counts: &mut Counts, image: &Image, verdicts: impl Iterator<Item = u32>) {
    let form = image.read_form();
    let walked = chain(image.profile(), &image.sheet, &image.heap, &image.records);
    let mut is_met = vec![false; image.shape.count];
    for record in walked.expect("an image that was judged").met {
        is_met[record] = true;
    }
    for ((buffer, number), times) in verdicts.enumerate().zip(listings(image)) {
        let times = times.min(2);
        if times > 0 {
            counts.note(form, Met::Listed(times, number));
        }
        let own_record = image.heap_word(image.t0(buffer));
        if let (false, Some(own)) = ([20, 21].contains(&number), image.record_at(own_record)) {
            counts.note(
                form,
                Met::Stands(pattern(image, buffer), is_met[own], times),
            );
        }
    }
}

/// Notes what is wrong with a list beside a refusal, by a call that tests this log; `is_short`
/// where its room is, too.
pub fn note_refusal(
    counts: &mut Counts,
    image: &Image,
    refusal: Refusal,
    log: &[u8],
    is_short: bool,
) {
    let is_long = image.magazines.len() > image.shape.count;
    let mut words = image.magazines.iter();
    let has_no_start = words.any(|word| image.shape.buffer_at(*word).is_none());
    let are_areas = chain(image.profile(), &image.sheet, &image.heap, &image.records).is_ok();
    let is_log = log.len().is_multiple_of(16) && log.len() <= 16_384;
    let cause = match refusal.number {
        1..=3 if !are_areas && has_no_start => AREAS_NO_START,
        3 if are_areas && !is_log && !is_long && has_no_start => LOG_NO_START,
        3 if are_areas && is_log && has_no_start => TOO_LONG_NO_START,
        3 if are_areas && is_log && is_short => TOO_LONG_SHORT,
        3 if are_areas && is_log => TOO_LONG,
        4 if is_short => NO_START_SHORT,
        4 => NO_START,
        _ => return,
    };
    counts.note(image.read_form(), cause);
}
