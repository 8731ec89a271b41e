//! The header of a sized grant: the first two words of the buffer. Under the kernel profile
//! there is none, and what stands there is hurt: the client's bytes, or the guard too.

use crate::image::{ALLOCATED_TAG, GUARD, REDZONE};
use crate::words::put_bytes;
use crate::{Image, Sequence};

/// Some buffer that was granted with a size, or any where none was.
fn some_sized(image: &Image, sequence: &mut Sequence) -> usize {
    let sized: Vec<usize> = (0..image.shape.count)
        .filter(|&buffer| image.tag(buffer) == ALLOCATED_TAG)
        .filter(|&buffer| image.heap_word(image.r1(buffer)) != REDZONE)
        .collect();
    if sized.is_empty() {
        return sequence.below(image.shape.count);
    }
    sequence.pick(&sized)
}

/// A word of the header is another by one bit, turned, 0, or any.
fn change_word(image: &mut Image, at: usize, sequence: &mut Sequence) {
    let word = image.heap_word(at);
    let bit = word ^ 1 << sequence.below(32);
    let any = sequence.word();
    let others = [bit, bit, word.swap_bytes(), word.wrapping_add(8), 0, any];
    image.put_heap_word(at, sequence.pick(&others));
}

pub fn change_first_word(image: &mut Image, sequence: &mut Sequence) {
    let at = image.buffer(some_sized(image, sequence));
    change_word(image, at, sequence);
}

pub fn change_second_word(image: &mut Image, sequence: &mut Sequence) {
    let at = image.buffer(some_sized(image, sequence)) + 4;
    change_word(image, at, sequence);
}

/// The words go together, but are not those of the size that R1 codes.
pub fn change_size(image: &mut Image, sequence: &mut Sequence) {
    let buffer = some_sized(image, sequence);
    let coded_size = image.coded_size(buffer) as u32;
    let any = sequence.word();
    let others = [
        coded_size.wrapping_sub(1),
        coded_size + 1,
        coded_size.wrapping_sub(8),
        coded_size + 8,
        any,
    ];
    image.put_header(buffer, sequence.pick(&others));
}

pub fn exchange_words(image: &mut Image, sequence: &mut Sequence) {
    let first = image.buffer(some_sized(image, sequence));
    let (one, other) = (image.heap_word(first), image.heap_word(first + 4));
    image.put_heap_word(first, other);
    image.put_heap_word(first + 4, one);
}

/// A coded size of 1 to 8, of which nothing is left for the client, with its header and then
/// its guard, which stands in the header where the size is below 8.
pub fn shrink(image: &mut Image, sequence: &mut Sequence) {
    let buffer = some_sized(image, sequence);
    let coded_size = sequence.pick(&[1, 2, 3, 4, 5, 6, 7, 8, 8, 8]);
    image.put_header(buffer, coded_size);
    let (r0, r1) = (image.r0(buffer), image.r1(buffer));
    image.put_heap_word(r0, REDZONE);
    image.put_heap_word(r1, 251 * coded_size + 1);
    let guard = image.buffer(buffer) + coded_size as usize;
    put_bytes(&mut image.heap, guard, &[GUARD]);
}
