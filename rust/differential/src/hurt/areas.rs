//! Areas of wrong length.

use crate::image::ROW_SIZE;
use crate::profile::{self, other_profile};
use crate::{Image, Sequence};

/// The sheet, heap or record area is empty, cut, longer than it should be, or as long as
/// records of the other profile.
pub fn change_length(image: &mut Image, sequence: &mut Sequence) {
    let (chunk_size, record_size) = (image.shape.chunk_size(), image.record_size());
    let of_other_profile = image.shape.count * profile::record_size(other_profile(image.profile()));
    let area = match sequence.below(3) {
        0 => &mut image.sheet,
        1 => &mut image.heap,
        _ => &mut image.records,
    };
    let length = area.len();
    let new_length = match sequence.below(8) {
        0 => 0,
        1 => length.saturating_sub(1),
        2 => length + 1,
        3 => sequence.below(length + 1),
        4 => length + chunk_size,
        5 => length + record_size,
        6 => of_other_profile,
        _ => 2 * length,
    };
    area.resize(new_length, 0);
}

/// A log that is no multiple of 16, or over 16,384; the longest lawful one too.
pub fn change_log_length(image: &mut Image, sequence: &mut Sequence) {
    let length = match sequence.below(8) {
        0 => 1,
        1 => 15,
        2 => 16_384,
        3 => 16_385,
        4 => 16_400,
        5 => 32_768,
        6 => image.log.len() + sequence.between(1, ROW_SIZE - 1),
        _ => sequence.below(20_000),
    };
    image.log.resize(length, 0);
}
