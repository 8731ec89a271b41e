//! Lists that are refused.

use super::{cache_some, list_full, list_starts, some_start, Kind};
use crate::hurt::no_buffer;
use crate::{Image, Sequence};

/// Lists that are refused: a word is no buffer's start, or there are too many.
pub const REFUSED_LISTS: [Kind; 12] = [
    ("list: a word between two buffers", |image, sequence| {
        let inside = sequence.between(1, image.shape.chunk_size() - 1) as u32;
        let start = some_start(image.shape, sequence);
        put_among(image, start + inside, sequence);
    }),
    ("list: a word before the first buffer", |image, sequence| {
        let step = image.shape.chunk_size() as u32;
        let before = sequence.pick(&[1, 4, 8, step]);
        let word = image.shape.heap_base.wrapping_sub(before);
        put_among(image, word, sequence);
    }),
    (
        "list: the word behind the last buffer",
        |image, sequence| {
            let length = image.shape.heap_length() as u32;
            let word = image.shape.heap_base.wrapping_add(length);
            put_among(image, word, sequence);
        },
    ),
    ("list: 0", |image, sequence| put_among(image, 0, sequence)),
    ("list: 0xffffffff", |image, sequence| {
        put_among(image, u32::MAX, sequence);
    }),
    ("list: a record's address", |image, sequence| {
        let record = sequence.below(image.shape.count);
        put_among(image, image.record_address(record), sequence);
    }),
    ("list: a turned address", |image, sequence| {
        let word = some_start(image.shape, sequence).swap_bytes();
        put_among(image, word, sequence);
    }),
    ("list: any word", |image, sequence| {
        let word = sequence.word();
        put_among(image, word, sequence);
    }),
    ("list: no buffer in n words", |image, sequence| {
        list_full(image, sequence);
        let place = sequence.below(image.magazines.len());
        image.magazines[place] = no_buffer(image.shape, sequence);
    }),
    ("list: n + 1 words", |image, sequence| {
        list_starts(image, image.shape.count + 1, sequence);
    }),
    ("list: many more words than n", |image, sequence| {
        let length = some_excess(image.shape.count, sequence);
        list_starts(image, length, sequence);
    }),
    ("list: too many words, some no buffer", |image, sequence| {
        let count = image.shape.count;
        let more = some_excess(count, sequence);
        let length = sequence.pick(&[count + 1, more]);
        list_starts(image, length, sequence);
        for _ in 0..sequence.between(1, 3) {
            let place = sequence.below(length);
            image.magazines[place] = no_buffer(image.shape, sequence);
        }
    }),
];

/// The lengths of a list that is far too long: some would do if fewer of their bits were
/// read.
fn some_excess(count: usize, sequence: &mut Sequence) -> usize {
    let more = count + sequence.between(2, 40);
    sequence.pick(&[
        more,
        more,
        2 * count + 1,
        4 * count + 4,
        256 + count,
        65_536 + count,
    ])
}

/// A list of free buffers with this word among them, or with 0 where a buffer starts there.
fn put_among(image: &mut Image, word: u32, sequence: &mut Sequence) {
    cache_some(image, sequence);
    let word = match image.shape.buffer_at(word) {
        None => word,
        Some(_) => 0,
    };
    image.magazines.truncate(image.shape.count - 1);
    let place = sequence.below(image.magazines.len() + 1);
    image.magazines.insert(place, word);
}
