//! Hurts that know nothing of what they hit.

use crate::image::{full_r0, ALLOCATED_TAG, FREE_FILL, FREE_TAG, REDZONE};
use crate::words::{change_byte, put_word};
use crate::{Image, Sequence};

/// One of the areas or the log, a small one as often as a large one.
fn some_area<'a>(image: &'a mut Image, sequence: &mut Sequence) -> &'a mut Vec<u8> {
    match sequence.below(4) {
        0 => &mut image.sheet,
        1 => &mut image.heap,
        2 => &mut image.records,
        _ => &mut image.log,
    }
}

/// One to eight bytes change, anywhere.
pub fn flip(image: &mut Image, sequence: &mut Sequence) {
    for _ in 0..sequence.between(1, 8) {
        let area = some_area(image, sequence);
        let at = sequence.below(area.len() + 1);
        change_byte(area, at, sequence.byte());
    }
}

/// Words that mean something elsewhere are put on words of the heap and the records.
pub fn misplace_words(image: &mut Image, sequence: &mut Sequence) {
    let (shape, order) = (image.shape, image.order());
    for _ in 0..sequence.between(1, 8) {
        let record = image.record_address(sequence.below(shape.count));
        let buffer = shape.buffer_address(sequence.below(shape.count));
        let code = 251 * sequence.below(shape.size + 2) as u32 + 1;
        let word = sequence.pick(&[
            0,
            record,
            buffer,
            code,
            FREE_FILL,
            REDZONE,
            full_r0(order),
            record ^ FREE_TAG,
            record ^ ALLOCATED_TAG,
        ]);
        let area = if sequence.once_in(2) {
            &mut image.heap
        } else {
            &mut image.records
        };
        let at = 4 * sequence.below(area.len() / 4 + 1);
        put_word(order, area, at, word);
    }
}

/// Words of the heap, the records or the log are turned: they stand as in the other
/// order.
pub fn turn_words(image: &mut Image, sequence: &mut Sequence) {
    for _ in 0..sequence.between(1, 8) {
        let area = match sequence.below(3) {
            0 => &mut image.heap,
            1 => &mut image.records,
            _ => &mut image.log,
        };
        let at = 4 * sequence.below(area.len() / 4 + 1);
        if let Some(word) = area.get_mut(at..at + 4) {
            word.reverse();
        }
    }
}

/// An area or all of them are random, or the image is cut as the program's input is.
pub fn replace(image: &mut Image, sequence: &mut Sequence) {
    match sequence.below(4) {
        0 => randomize(some_area(image, sequence), sequence),
        1 => {
            for area in [&mut image.heap, &mut image.records, &mut image.log] {
                randomize(area, sequence);
            }
        }
        2 => {
            for area in [&mut image.sheet, &mut image.heap, &mut image.records] {
                randomize(area, sequence);
            }
        }
        _ => cut(image, sequence),
    }
}

fn randomize(area: &mut Vec<u8>, sequence: &mut Sequence) {
    *area = sequence.bytes(area.len());
}

/// "Input that ends early makes the sheet or an area wrong."
fn cut(image: &mut Image, sequence: &mut Sequence) {
    let mut bytes = image.bytes();
    bytes.truncate(sequence.below(bytes.len() + 1));
    image.sheet = split_off(&mut bytes, image.form.sheet_length());
    image.heap = split_off(&mut bytes, image.shape.heap_length());
    image.records = split_off(&mut bytes, image.record_length());
    image.log = bytes;
}

/// Takes the first bytes, fewer where there are no more.
fn split_off(bytes: &mut Vec<u8>, length: usize) -> Vec<u8> {
    let rest = bytes.split_off(length.min(bytes.len()));
    std::mem::replace(bytes, rest)
}
