//! Records that do not each name a buffer of their own.

use super::no_buffer;
use crate::image::ADDRESS;
use crate::{Image, Sequence};

/// Some record's address word, by its place in the record area.
fn some_name(image: &Image, sequence: &mut Sequence) -> usize {
    image.record(sequence.below(image.shape.count)) + ADDRESS
}

/// One record, or two, name what another names.
pub fn name_twice(image: &mut Image, sequence: &mut Sequence) {
    let other = some_name(image, sequence);
    let address = image.record_word(other);
    for _ in 0..sequence.between(1, 2) {
        let name = some_name(image, sequence);
        image.put_record_word(name, address);
    }
}

/// A record names an address where no buffer starts.
pub fn name_nothing(image: &mut Image, sequence: &mut Sequence) {
    let address = no_buffer(image.shape, sequence);
    let name = some_name(image, sequence);
    image.put_record_word(name, address);
}

/// Two records name each other's buffer, and the tags don't follow.
pub fn exchange_names(image: &mut Image, sequence: &mut Sequence) {
    let one = some_name(image, sequence);
    let other = some_name(image, sequence);
    let (address, other_address) = (image.record_word(one), image.record_word(other));
    image.put_record_word(one, other_address);
    image.put_record_word(other, address);
}
