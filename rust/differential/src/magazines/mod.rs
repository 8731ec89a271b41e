//! Magazine lists of every kind, drawn for sound images. A buffer that was freed is then on the
//! chain, in a magazine, or where it should not be.

mod lawful;
mod refused;

pub use lawful::LISTS;
pub use refused::REFUSED_LISTS;

use crate::chain::{lead_through, met};
use crate::image::ADDRESS;
use crate::{Image, Sequence, Shape};

/// One kind of list, with its name. The buffers of some kinds are taken off the chain, or are
/// hurt.
pub type Kind = (&'static str, fn(&mut Image, &mut Sequence));

/// The name of no list.
pub const EMPTY: &str = "list: empty";

/// Lists nothing, or draws a list of any kind, and answers its name.
pub fn list(image: &mut Image, sequence: &mut Sequence) -> &'static str {
    let (name, way) = match sequence.below(8) {
        0 => return EMPTY,
        1 | 2 => sequence.pick(&REFUSED_LISTS),
        _ => sequence.pick(&LISTS),
    };
    way(image, sequence);
    name
}

/// The names of all kinds.
pub fn names() -> impl Iterator<Item = &'static str> {
    let kinds = LISTS.iter().chain(&REFUSED_LISTS);
    [EMPTY].into_iter().chain(kinds.map(|(name, _)| *name))
}

/// The buffers of these records are in magazines, and the chain passes over them.
pub fn cache(image: &mut Image, records: &[usize]) {
    let mut is_kept = vec![true; image.shape.count];
    for &record in records {
        is_kept[record] = false;
        let address = image.record_word(image.record(record) + ADDRESS);
        image.magazines.push(address);
    }
    let mut chain = met(image);
    chain.retain(|record| is_kept[*record]);
    lead_through(image, &chain);
}

fn some_start(shape: Shape, sequence: &mut Sequence) -> u32 {
    shape.buffer_address(sequence.below(shape.count))
}

/// So many words, each some buffer's start.
fn list_starts(image: &mut Image, length: usize, sequence: &mut Sequence) {
    let shape = image.shape;
    image.magazines = (0..length).map(|_| some_start(shape, sequence)).collect();
}

/// Some of the free buffers are in magazines and off the chain, at least one where there is one.
/// No buffer has a fault by this.
pub fn cache_some(image: &mut Image, sequence: &mut Sequence) {
    let mut chain = met(image);
    sequence.shuffle(&mut chain);
    if !chain.is_empty() {
        chain.truncate(sequence.between(1, chain.len()));
    }
    cache(image, &chain);
}

fn cache_every(image: &mut Image, sequence: &mut Sequence) {
    let mut chain = met(image);
    sequence.shuffle(&mut chain);
    cache(image, &chain);
}

/// Every buffer once, or any n words; now and then n times the same.
fn list_full(image: &mut Image, sequence: &mut Sequence) {
    let (shape, count) = (image.shape, image.shape.count);
    match sequence.below(4) {
        0 => list_starts(image, count, sequence),
        1 => image.magazines = vec![some_start(shape, sequence); count],
        way => {
            if way == 2 {
                cache_every(image, sequence);
            }
            image.magazines = (0..count)
                .map(|buffer| shape.buffer_address(buffer))
                .collect();
            sequence.shuffle(&mut image.magazines);
        }
    }
}
