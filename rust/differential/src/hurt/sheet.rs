//! Sheets of wrong tags and lengths, and numbers past each limit.

use reference::{SHEET_LENGTH, SHORT_SHEET_LENGTH};

use crate::image::{
    CACHE_BODY, CHUNK_SIZE_BODY, COUNT_BODY, FLAGS_BODY, HEAP_BASE_BODY, ORDER_BODY,
    RECORD_BASE_BODY, SIZE_BODY,
};
use crate::words::{change_byte, put_bytes, put_sheet_half, put_sheet_word};
use crate::{Image, Sequence};

/// Where the tags stand; the length of a field is the two bytes after its tag. The short
/// form has no ninth field.
const TAGS: [usize; 9] = [0, 7, 14, 21, 26, 31, 36, 43, 48];

/// The longest areas that are made to follow a count: more would only take time.
const MOST_FOLLOWED: usize = 200_000;

pub fn change_tag(image: &mut Image, sequence: &mut Sequence) {
    let tag = sequence.pick(&TAGS);
    change_byte(&mut image.sheet, tag, sequence.byte());
}

pub fn change_field_length(image: &mut Image, sequence: &mut Sequence) {
    let length = sequence.pick(&TAGS) + sequence.between(1, 2);
    change_byte(&mut image.sheet, length, sequence.byte());
}

/// Two neighbours of equal length change places, each with its own tag.
pub fn exchange_fields(image: &mut Image, sequence: &mut Sequence) {
    let (start, length) = sequence.pick(&[(0, 7), (7, 7), (21, 5), (26, 5)]);
    if let Some(pair) = image.sheet.get_mut(start..start + 2 * length) {
        pair.rotate_left(length);
    }
}

/// The ninth field has another tag or another length; its body stays.
pub fn change_last_field(image: &mut Image, sequence: &mut Sequence) {
    let field = sequence.pick(&[
        [0, 0, 1],
        [8, 0, 1],
        [10, 0, 1],
        [9, 0, 0],
        [9, 0, 2],
        [9, 0, 4],
        [9, 1, 0],
        [9, 1, 1],
    ]);
    put_bytes(&mut image.sheet, SHORT_SHEET_LENGTH, &field);
}

/// The order is neither 0 nor 1.
pub fn break_order(image: &mut Image, sequence: &mut Sequence) {
    let any = sequence.between(2, 255) as u8;
    let order = sequence.pick(&[any, any, 2, 3, 0x80, 0xff]);
    put_bytes(&mut image.sheet, ORDER_BODY, &[order]);
}

/// The sheet says the other order, and no word follows it.
pub fn exchange_order(image: &mut Image, _: &mut Sequence) {
    change_byte(&mut image.sheet, ORDER_BODY, 1);
}

/// The sheet has 47 to 53 bytes, cut or with zeros behind it.
pub fn change_sheet_length(image: &mut Image, sequence: &mut Sequence) {
    let length = sequence.between(SHORT_SHEET_LENGTH - 1, SHEET_LENGTH + 1);
    image.sheet.resize(length, 0);
}

/// The ninth field is cut off, or put behind the other eight with either order.
pub fn change_form(image: &mut Image, sequence: &mut Sequence) {
    image.sheet.truncate(SHORT_SHEET_LENGTH);
    if !sequence.once_in(3) {
        let order = sequence.below(2) as u8;
        image.sheet.extend([9, 0, 1, order]);
    }
}

/// The chunk size and the areas follow, so that the buffer size alone is unlawful. The
/// last two need more than two bytes for their chunk size.
pub fn break_size(image: &mut Image, sequence: &mut Sequence) {
    let size = sequence.pick(&[0, 1, 4, 12, 20, 4095, 4097, 4104, 8192, 65_520, 65_528]);
    put_sizes(image, size, 1);
}

pub fn break_chunk_size(image: &mut Image, sequence: &mut Sequence) {
    let lawful = image.shape.chunk_size() as u16;
    let any = sequence.word() as u16;
    let chunk_size = sequence.pick(&[lawful + 1, lawful - 1, lawful + 8, lawful - 16, 0, any]);
    put_sheet_half(&mut image.sheet, CHUNK_SIZE_BODY, chunk_size);
}

/// The areas follow, so that the count alone is unlawful.
pub fn break_count(image: &mut Image, sequence: &mut Sequence) {
    let count = sequence.pick(&[0, 0, 513, 513, 514, 1024, 65_535]);
    put_sizes(image, 8, count);
}

/// A size and a count that are lawful by themselves. The first two heap areas are
/// 65,552 bytes, the smallest there is above the limit.
pub fn break_heap_limit(image: &mut Image, sequence: &mut Sequence) {
    let (size, count) = sequence.pick(&[(120, 482), (256, 241), (4096, 16), (4096, 512)]);
    put_sizes(image, size, count);
}

pub fn break_flags(image: &mut Image, sequence: &mut Sequence) {
    let any = sequence.word() as u16;
    let bit = 1 << sequence.below(16);
    let flags = sequence.pick(&[0, 0x0f02, 0x020f ^ bit, any]);
    put_sheet_half(&mut image.sheet, FLAGS_BODY, flags);
}

/// A base that is 0, no multiple of 8, or too high for its area.
pub fn break_base(image: &mut Image, sequence: &mut Sequence) {
    let shape = image.shape;
    let (body, lawful, length) = sequence.pick(&[
        (HEAP_BASE_BODY, shape.heap_base, shape.heap_length()),
        (RECORD_BASE_BODY, shape.record_base, image.record_length()),
    ]);
    let too_high = aligned(length).wrapping_neg() + 8;
    let unaligned = lawful + sequence.between(1, 7) as u32;
    let base = sequence.pick(&[0, unaligned, too_high, 0xffff_fff8]);
    put_sheet_word(&mut image.sheet, body, base);
}

/// The length of an area, up to the next base behind it: an odd count of userland records
/// ends between two.
fn aligned(length: usize) -> u32 {
    length.next_multiple_of(8) as u32
}

/// One range starts within the other, or on it, or takes its last or first bytes; or
/// the ranges only touch, which is lawful.
pub fn share_addresses(image: &mut Image, sequence: &mut Sequence) {
    let shape = image.shape;
    let heap = (shape.heap_base, aligned(shape.heap_length()));
    let records = (shape.record_base, aligned(image.record_length()));
    let (body, length, other_base, other_length) = if sequence.once_in(2) {
        (HEAP_BASE_BODY, heap.1, records.0, records.1)
    } else {
        (RECORD_BASE_BODY, records.1, heap.0, heap.1)
    };
    let inside = 8 * sequence.below(other_length as usize / 8) as u32;
    let base = sequence.pick(&[
        other_base,
        other_base.wrapping_add(inside),
        other_base.wrapping_add(other_length - 8),
        other_base.wrapping_add(other_length),
        other_base.wrapping_sub(length - 8),
        other_base.wrapping_sub(length),
    ]);
    put_sheet_word(&mut image.sheet, body, base);
}

/// "Cache address and chain head may be any number."
pub fn change_cache(image: &mut Image, sequence: &mut Sequence) {
    put_sheet_word(&mut image.sheet, CACHE_BODY, sequence.word());
}

/// Writes a size, its chunk size and a count, low bases that are apart, and gives the
/// areas the lengths that follow.
fn put_sizes(image: &mut Image, size: u16, count: u16) {
    let heap_length = usize::from(count) * (usize::from(size) + 16);
    let record_length = image.record(usize::from(count));
    put_sheet_half(&mut image.sheet, SIZE_BODY, size);
    put_sheet_half(&mut image.sheet, CHUNK_SIZE_BODY, size.wrapping_add(16));
    put_sheet_half(&mut image.sheet, COUNT_BODY, count);
    put_sheet_word(&mut image.sheet, HEAP_BASE_BODY, 0x1000_0000);
    put_sheet_word(&mut image.sheet, RECORD_BASE_BODY, 0x2000_0000);
    image.heap.resize(heap_length.min(MOST_FOLLOWED), 0);
    image.records.resize(record_length.min(MOST_FOLLOWED), 0);
}
