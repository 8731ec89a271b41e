//! The chain of an image, read and rewritten.

use reference::chain;

use crate::image::NEXT;
use crate::Image;

/// The records met by the chain as it is, none for an image that is refused.
pub fn met(image: &Image) -> Vec<usize> {
    match chain(image.profile(), &image.sheet, &image.heap, &image.records) {
        Ok(chain) => chain.met,
        Err(_) => Vec::new(),
    }
}

pub fn put_next(image: &mut Image, record: usize, next: u32) {
    image.put_record_word(image.record(record) + NEXT, next);
}

pub fn next(image: &Image, record: usize) -> u32 {
    image.record_word(image.record(record) + NEXT)
}

/// The chain is these records, one after the other, and then ends. The next words of all
/// others stay.
pub fn lead_through(image: &mut Image, records: &[usize]) {
    let mut after = 0;
    for &record in records.iter().rev() {
        put_next(image, record, after);
        after = image.record_address(record);
    }
    image.put_head(after);
}
