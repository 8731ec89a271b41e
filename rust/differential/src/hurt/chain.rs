//! Chains that do not meet exactly the free records.

use super::no_record;
use crate::chain::{met, next, put_next};
use crate::{Image, Sequence};

/// Some record met by the chain, or any where none is.
fn some_met(image: &Image, sequence: &mut Sequence) -> usize {
    let met = met(image);
    if met.is_empty() {
        return sequence.below(image.shape.count);
    }
    sequence.pick(&met)
}

pub fn cut(image: &mut Image, sequence: &mut Sequence) {
    let record = some_met(image, sequence);
    put_next(image, record, 0);
}

/// The chain, or its head, leads to an address where no record starts.
pub fn leave_records(image: &mut Image, sequence: &mut Sequence) {
    let target = no_record(image, sequence);
    lead_to(image, target, sequence);
}

/// The chain leads into a record, past its start.
pub fn miss_start(image: &mut Image, sequence: &mut Sequence) {
    let record = sequence.below(image.shape.count);
    let inside = sequence.between(1, image.record_size() - 1) as u32;
    let target = image.record_address(record) + inside;
    lead_to(image, target, sequence);
}

/// Puts an address in a next word of the chain or in the head.
fn lead_to(image: &mut Image, target: u32, sequence: &mut Sequence) {
    if sequence.once_in(3) {
        image.put_head(target);
    } else {
        let record = some_met(image, sequence);
        put_next(image, record, target);
    }
}

pub fn loop_to_self(image: &mut Image, sequence: &mut Sequence) {
    let record = some_met(image, sequence);
    put_next(image, record, image.record_address(record));
}

/// The last record met leads back to some record met: the first, one in the middle,
/// or itself.
pub fn loop_back(image: &mut Image, sequence: &mut Sequence) {
    let Some(&last) = met(image).last() else {
        return;
    };
    let back = some_met(image, sequence);
    put_next(image, last, image.record_address(back));
}

pub fn empty(image: &mut Image, _: &mut Sequence) {
    image.put_head(0);
}

/// The chain starts at another record, allocated or free.
pub fn change_head(image: &mut Image, sequence: &mut Sequence) {
    let record = sequence.below(image.shape.count);
    let address = image.record_address(record);
    image.put_head(address);
}

/// A record is passed over: its predecessor, or the head, leads to its next.
pub fn leave_out(image: &mut Image, sequence: &mut Sequence) {
    let met = met(image);
    if met.is_empty() {
        return;
    }
    let place = sequence.below(met.len());
    let after = next(image, met[place]);
    match place.checked_sub(1) {
        None => image.put_head(after),
        Some(before) => put_next(image, met[before], after),
    }
}

/// A record that the chain doesn't meet is put into it, whole chain kept.
pub fn add_allocated(image: &mut Image, sequence: &mut Sequence) {
    let met = met(image);
    let missing: Vec<usize> = (0..image.shape.count)
        .filter(|record| !met.contains(record))
        .collect();
    if missing.is_empty() {
        return;
    }
    let added = sequence.pick(&missing);
    let address = image.record_address(added);
    let after = match sequence.below(met.len() + 1).checked_sub(1) {
        None => {
            let old_head = image.head();
            image.put_head(address);
            old_head
        }
        Some(place) => {
            let after = next(image, met[place]);
            put_next(image, met[place], address);
            after
        }
    };
    put_next(image, added, after);
}
