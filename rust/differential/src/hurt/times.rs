//! Stamps that a 32-bit uptime can't be compared with.

use crate::image::stamp_high;
use crate::{Image, Sequence};

/// One record's stamp, or every one, gets a non-zero high half.
pub fn widen_stamp(image: &mut Image, sequence: &mut Sequence) {
    let half = stamp_high(image.order());
    let count = image.shape.count;
    let bit = 1 << sequence.below(32);
    let record = sequence.below(count);
    let wide = if sequence.once_in(2) {
        record..record + 1
    } else {
        0..count
    };
    for record in wide {
        image.put_record_word(image.record(record) + half, bit);
    }
}
