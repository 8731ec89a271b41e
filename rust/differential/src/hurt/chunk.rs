//! Tags, fills, redzones, size codes and guard bytes.

use crate::image::{full_r0, ALLOCATED_TAG, FREE_FILL, FREE_TAG, REDZONE};
use crate::words::{change_byte, put_bytes, word_bytes};
use crate::{Image, Sequence};

fn some_buffer(image: &Image, sequence: &mut Sequence) -> usize {
    sequence.below(image.shape.count)
}

/// Some buffer with a pattern, or any where none has it.
fn some_tagged(image: &Image, tag: u32, sequence: &mut Sequence) -> usize {
    let tagged: Vec<usize> = (0..image.shape.count)
        .filter(|&buffer| image.tag(buffer) == tag)
        .collect();
    if tagged.is_empty() {
        return some_buffer(image, sequence);
    }
    sequence.pick(&tagged)
}

/// T0 is any word or another record's address; the xor is then neither pattern.
pub fn change_t0(image: &mut Image, sequence: &mut Sequence) {
    let other = image.record_address(some_buffer(image, sequence));
    let any = sequence.word();
    let t0 = image.t0(some_buffer(image, sequence));
    image.put_heap_word(t0, sequence.pick(&[0, any, other]));
}

/// Both tag words change, so that the xor stays a pattern.
pub fn tag_with_other_record(image: &mut Image, sequence: &mut Sequence) {
    let buffer = some_buffer(image, sequence);
    let tag = image.tag(buffer);
    let record = image.record_address(some_buffer(image, sequence));
    let named = sequence.pick(&[record, record + 4, 0, image.shape.heap_base]);
    let (t0, t1) = (image.t0(buffer), image.t1(buffer));
    image.put_heap_word(t0, named);
    image.put_heap_word(t1, named ^ tag);
}

/// One bit of T1 changes, or all of them.
pub fn break_tag(image: &mut Image, sequence: &mut Sequence) {
    let t1 = image.t1(some_buffer(image, sequence));
    let bit = 1 << sequence.below(32);
    let broken = image.heap_word(t1) ^ sequence.pick(&[bit, u32::MAX]);
    image.put_heap_word(t1, broken);
}

/// An allocated buffer takes the free pattern, or a free one the allocated.
pub fn exchange_pattern(image: &mut Image, sequence: &mut Sequence) {
    let t1 = image.t1(some_buffer(image, sequence));
    let exchanged = image.heap_word(t1) ^ ALLOCATED_TAG ^ FREE_TAG;
    image.put_heap_word(t1, exchanged);
}

/// The xor stays, and T0 is no record's address.
pub fn exchange_tag_words(image: &mut Image, sequence: &mut Sequence) {
    let buffer = some_buffer(image, sequence);
    let (t0, t1) = (image.t0(buffer), image.t1(buffer));
    let (first, second) = (image.heap_word(t0), image.heap_word(t1));
    image.put_heap_word(t0, second);
    image.put_heap_word(t1, first);
}

pub fn change_fill(image: &mut Image, sequence: &mut Sequence) {
    let buffer = some_tagged(image, FREE_TAG, sequence);
    for _ in 0..sequence.between(1, 3) {
        let at = image.buffer(buffer) + sequence.below(image.shape.size);
        change_byte(&mut image.heap, at, sequence.byte());
    }
}

pub fn change_free_redzone(image: &mut Image, sequence: &mut Sequence) {
    let buffer = some_tagged(image, FREE_TAG, sequence);
    for _ in 0..sequence.between(1, 2) {
        let at = image.r0(buffer) + sequence.below(8);
        change_byte(&mut image.heap, at, sequence.byte());
    }
}

/// R0 changes, or R1, which may then be a size code or none.
pub fn change_granted_redzone(image: &mut Image, sequence: &mut Sequence) {
    let buffer = some_tagged(image, ALLOCATED_TAG, sequence);
    for _ in 0..sequence.between(1, 2) {
        let at = image.r0(buffer) + sequence.below(8);
        change_byte(&mut image.heap, at, sequence.byte());
    }
}

/// The code of the full size, with R0 as that grant leaves it and in other ways, among
/// them turned, and mostly with its header.
pub fn grant_full_size(image: &mut Image, sequence: &mut Sequence) {
    let buffer = some_tagged(image, ALLOCATED_TAG, sequence);
    let bit = 1 << sequence.below(32);
    let full = full_r0(image.order());
    let others = full.swap_bytes();
    let r0 = sequence.pick(&[full, full, full, REDZONE, full ^ bit, others]);
    let (r0_at, r1_at) = (image.r0(buffer), image.r1(buffer));
    image.put_heap_word(r0_at, r0);
    let size = image.shape.size as u32;
    image.put_heap_word(r1_at, 251 * size + 1);
    if !sequence.once_in(4) {
        image.put_header(buffer, size);
    }
}

fn put_code(image: &mut Image, code: u32, sequence: &mut Sequence) {
    let at = image.r1(some_tagged(image, ALLOCATED_TAG, sequence));
    image.put_heap_word(at, code);
}

/// R1 is the code of another size, says that the grant is whole, or is any word.
pub fn change_size_code(image: &mut Image, sequence: &mut Sequence) {
    let another = sequence.between(1, image.shape.size) as u32;
    let any = sequence.word();
    let code = sequence.pick(&[251 * another + 1, REDZONE, any]);
    put_code(image, code, sequence);
}

/// R1 has a wrong remainder: that of no size, of a lawful one, or of one above.
pub fn change_remainder(image: &mut Image, sequence: &mut Sequence) {
    let size = image.shape.size as u32;
    let another = sequence.between(1, image.shape.size) as u32;
    let coded = sequence.pick(&[0, another, another, size + 1]);
    let code = 251 * coded + sequence.pick(&[0, 2, 3, 125, 250]);
    put_code(image, code, sequence);
}

pub fn code_size_zero(image: &mut Image, sequence: &mut Sequence) {
    put_code(image, 1, sequence);
}

/// R1 is the code of a size that is too large: by little, or such that it would be lawful
/// if fewer of its bits were read. With 17,111,423 the code is the largest there is.
pub fn code_size_above(image: &mut Image, sequence: &mut Sequence) {
    let size = image.shape.size as u32;
    let near = [size + 1, size + 8, size + 9, 2 * size];
    let far = [size + 0x1000, size + 0x1_0000, 17_111_423];
    let coded = sequence.pick(&[&near[..], &far].concat());
    put_code(image, 251 * coded + 1, sequence);
}

pub fn change_guard(image: &mut Image, sequence: &mut Sequence) {
    let buffer = some_tagged(image, ALLOCATED_TAG, sequence);
    let guard = image.buffer(buffer) + image.coded_size(buffer);
    change_byte(&mut image.heap, guard, sequence.byte());
}

/// This must not make the buffer free.
pub fn store_fill(image: &mut Image, sequence: &mut Sequence) {
    let buffer = some_tagged(image, ALLOCATED_TAG, sequence);
    let client = image.client(buffer);
    let start = image.buffer(buffer) + client.start;
    let fill = word_bytes(image.order(), FREE_FILL).repeat(image.shape.size / 4);
    put_bytes(&mut image.heap, start, &fill[..client.len()]);
}

/// "Bytes strictly between guard and redzone are not judged."
pub fn change_unjudged(image: &mut Image, sequence: &mut Sequence) {
    let buffer = some_tagged(image, ALLOCATED_TAG, sequence);
    let start = image.buffer(buffer);
    for offset in image.coded_size(buffer) + 1..image.shape.size {
        put_bytes(&mut image.heap, start + offset, &[sequence.byte()]);
    }
}
