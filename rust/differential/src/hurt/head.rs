//! The chain's first record and its buffer.

use super::{no_buffer, no_record};
use crate::image::{ADDRESS, ALLOCATED_TAG, FREE_TAG};
use crate::words::change_byte;
use crate::{Image, Sequence};

/// The first record, if the head is one.
fn first_record(image: &Image) -> Option<usize> {
    image.record_at(image.head())
}

/// The buffer that the first record names, if it names one.
fn first_buffer(image: &Image) -> Option<usize> {
    let name = image.record(first_record(image)?) + ADDRESS;
    image.shape.buffer_at(image.record_word(name))
}

pub fn leave_records(image: &mut Image, sequence: &mut Sequence) {
    let head = no_record(image, sequence);
    image.put_head(head);
}

/// The first record names an address, if there is a first record.
fn put_name(image: &mut Image, address: u32) {
    if let Some(record) = first_record(image) {
        image.put_record_word(image.record(record) + ADDRESS, address);
    }
}

pub fn name_nothing(image: &mut Image, sequence: &mut Sequence) {
    let address = no_buffer(image.shape, sequence);
    put_name(image, address);
}

pub fn name_other(image: &mut Image, sequence: &mut Sequence) {
    let other = sequence.below(image.shape.count);
    put_name(image, image.shape.buffer_address(other));
}

/// The first buffer's tag takes another pattern, or another record's address.
fn put_tag(image: &mut Image, own_record: u32, tag: u32) {
    if let Some(buffer) = first_buffer(image) {
        let (t0, t1) = (image.t0(buffer), image.t1(buffer));
        image.put_heap_word(t0, own_record);
        image.put_heap_word(t1, own_record ^ tag);
    }
}

/// A record's address that may be the head, an address near it, or none at all.
fn other_record(image: &Image, sequence: &mut Sequence) -> u32 {
    let record = image.record_address(sequence.below(image.shape.count));
    let head = image.head();
    sequence.pick(&[record, record, head ^ 1, head ^ 0x8000_0000, 0])
}

pub fn tag_with_other(image: &mut Image, sequence: &mut Sequence) {
    let other = other_record(image, sequence);
    put_tag(image, other, FREE_TAG);
}

pub fn mark_others_allocated(image: &mut Image, sequence: &mut Sequence) {
    let other = other_record(image, sequence);
    put_tag(image, other, ALLOCATED_TAG);
}

pub fn mark_allocated(image: &mut Image, _: &mut Sequence) {
    put_tag(image, image.head(), ALLOCATED_TAG);
}

/// One bit of the pattern changes.
pub fn break_tag(image: &mut Image, sequence: &mut Sequence) {
    let tag = sequence.pick(&[FREE_TAG, ALLOCATED_TAG]) ^ 1 << sequence.below(32);
    put_tag(image, image.head(), tag);
}

pub fn change_fill(image: &mut Image, sequence: &mut Sequence) {
    if let Some(buffer) = first_buffer(image) {
        let last = image.shape.size - 1;
        let any = sequence.below(image.shape.size);
        let at = image.buffer(buffer) + sequence.pick(&[0, any, last]);
        change_byte(&mut image.heap, at, sequence.byte());
    }
}

pub fn change_redzone(image: &mut Image, sequence: &mut Sequence) {
    if let Some(buffer) = first_buffer(image) {
        let at = image.r0(buffer) + sequence.below(8);
        change_byte(&mut image.heap, at, sequence.byte());
    }
}

pub fn change_fill_and_redzone(image: &mut Image, sequence: &mut Sequence) {
    change_fill(image, sequence);
    change_redzone(image, sequence);
}

pub fn mark_allocated_and_change_fill(image: &mut Image, sequence: &mut Sequence) {
    mark_allocated(image, sequence);
    change_fill(image, sequence);
}
