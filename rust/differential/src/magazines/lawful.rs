//! Lists that are not refused, of buffers that stand in every way.

use std::iter::repeat_n;

use super::{cache_every, cache_some, list_full, list_starts, some_start, Kind};
use crate::chain::met;
use crate::hurt::no_buffer;
use crate::image::{ADDRESS, ALLOCATED_TAG};
use crate::words::change_byte;
use crate::{Image, Sequence};

/// Lists of at most n words, each a buffer's start. Where the image has no buffer of a kind,
/// the list is empty, or as that of another kind.
pub const LISTS: [Kind; 14] = [
    ("list: free buffers, off the chain", cache_some),
    ("list: every free buffer, no chain", cache_every),
    ("list: a buffer twice or more", list_repeatedly),
    ("list: buffers on the chain", list_chained),
    ("list: allocated buffers", list_allocated),
    ("list: any buffers", list_any),
    ("list: n words", list_full),
    ("list: a fill hurt", hurt_fill),
    ("list: a redzone hurt", hurt_redzone),
    ("list: neither pattern", break_tag),
    ("list: another T0", change_t0),
    ("list: a buffer named by no record", leave_unnamed),
    ("list: a buffer named by two records", name_twice),
    ("list: a buffer off the chain left out", leave_out),
];

fn list_repeatedly(image: &mut Image, sequence: &mut Sequence) {
    cache_some(image, sequence);
    let count = image.shape.count;
    let word = some_listed(image, sequence).map(|buffer| image.shape.buffer_address(buffer));
    let word = word.unwrap_or(some_start(image.shape, sequence));
    let times = sequence.between(2, 4).min(count);
    image.magazines.retain(|other| *other != word);
    image.magazines.truncate(count - times);
    image.magazines.extend(repeat_n(word, times));
    sequence.shuffle(&mut image.magazines);
}

/// They stay on the chain; some others may be off it and listed too.
fn list_chained(image: &mut Image, sequence: &mut Sequence) {
    if sequence.once_in(2) {
        cache_some(image, sequence);
    }
    for record in met(image) {
        if sequence.once_in(2) {
            let address = image.record_word(image.record(record) + ADDRESS);
            image.magazines.push(address);
        }
    }
    sequence.shuffle(&mut image.magazines);
}

/// Buffers with the allocated pattern, beside free ones that are off the chain.
fn list_allocated(image: &mut Image, sequence: &mut Sequence) {
    cache_some(image, sequence);
    for buffer in 0..image.shape.count {
        if image.tag(buffer) == ALLOCATED_TAG && sequence.once_in(2) {
            image.magazines.push(image.shape.buffer_address(buffer));
        }
    }
    sequence.shuffle(&mut image.magazines);
}

fn list_any(image: &mut Image, sequence: &mut Sequence) {
    let length = sequence.between(1, image.shape.count);
    list_starts(image, length, sequence);
}

/// Some listed buffer, if one is.
fn some_listed(image: &Image, sequence: &mut Sequence) -> Option<usize> {
    if image.magazines.is_empty() {
        return None;
    }
    image.shape.buffer_at(sequence.pick(&image.magazines))
}

/// Some listed buffer of the free ones that are put into magazines now.
fn some_cached(image: &mut Image, sequence: &mut Sequence) -> Option<usize> {
    cache_some(image, sequence);
    some_listed(image, sequence)
}

fn hurt_fill(image: &mut Image, sequence: &mut Sequence) {
    if let Some(buffer) = some_cached(image, sequence) {
        let at = image.buffer(buffer) + sequence.below(image.shape.size);
        change_byte(&mut image.heap, at, sequence.byte());
    }
}

fn hurt_redzone(image: &mut Image, sequence: &mut Sequence) {
    if let Some(buffer) = some_cached(image, sequence) {
        let at = image.r0(buffer) + sequence.below(8);
        change_byte(&mut image.heap, at, sequence.byte());
    }
}

fn break_tag(image: &mut Image, sequence: &mut Sequence) {
    if let Some(buffer) = some_cached(image, sequence) {
        let t1 = image.t1(buffer);
        let broken = image.heap_word(t1) ^ 1 << sequence.below(32);
        image.put_heap_word(t1, broken);
    }
}

/// Both tag words change, so that the pattern stays.
fn change_t0(image: &mut Image, sequence: &mut Sequence) {
    if let Some(buffer) = some_cached(image, sequence) {
        let (t0, t1) = (image.t0(buffer), image.t1(buffer));
        let tag = image.tag(buffer);
        let other = image.heap_word(t0) ^ sequence.pick(&[1, 4, 0x100, u32::MAX]);
        image.put_heap_word(t0, other);
        image.put_heap_word(t1, other ^ tag);
    }
}

/// Where the address word of a buffer's own record stands, by its T0.
fn name_of(image: &Image, buffer: usize) -> Option<usize> {
    let record = image.record_at(image.heap_word(image.t0(buffer)))?;
    Some(image.record(record) + ADDRESS)
}

fn leave_unnamed(image: &mut Image, sequence: &mut Sequence) {
    let buffer = some_cached(image, sequence);
    if let Some(name) = buffer.and_then(|buffer| name_of(image, buffer)) {
        let address = no_buffer(image.shape, sequence);
        image.put_record_word(name, address);
    }
}

/// Another record names it too, if there is one.
fn name_twice(image: &mut Image, sequence: &mut Sequence) {
    if let Some(buffer) = some_cached(image, sequence) {
        let name = image.record(sequence.below(image.shape.count)) + ADDRESS;
        image.put_record_word(name, image.shape.buffer_address(buffer));
    }
}

fn leave_out(image: &mut Image, sequence: &mut Sequence) {
    cache_some(image, sequence);
    if !image.magazines.is_empty() {
        let place = sequence.below(image.magazines.len());
        image.magazines.remove(place);
    }
}
