//! A hurt image turned to the other order.

use differential::{Form, Image};

/// Where tag 9 has its body in a sheet.
const ORDER: usize = 51;

/// Where the timestamp stands in a record, and where it ends.
const STAMP: usize = 16;
const STAMP_END: usize = 24;

const FREE_TAG: u32 = 0xf4ee_f4ee;
const ALLOCATED_TAG: u32 = 0xa110_c8ed;
const FREE_FILL: u32 = 0xdead_beef;
const REDZONE: u32 = 0xfeed_face;

/// The same image with the low byte first, given one of the kernel profile with the high
/// byte first and with no log.
///
/// Words are turned as words, and a stamp as one number. Where the rules compare bytes with
/// those of a word, in the fill and the redzone of a free buffer and in R0 of an allocated
/// one, a byte that is as wanted becomes as wanted in the other order, and one that is not
/// stays so. Every verdict is then the same, with its size or offset. A client's bytes stay.
pub fn low_first(mut image: Image) -> Image {
    assert!(image.form == Form::High && image.log.is_empty());
    let record_size = image.record_size();
    let size = image.shape.size;
    for chunk in image.heap.chunks_exact_mut(image.shape.chunk_size()) {
        let (buffer, tail) = chunk.split_at_mut(size);
        turn_chunk(buffer, tail);
    }
    for record in image.records.chunks_exact_mut(record_size) {
        turn_words(record);
        record[STAMP..STAMP_END].rotate_left(4);
    }
    image.sheet[ORDER] = 1;
    image.form = Form::Low;
    image
}

fn turn_chunk(buffer: &mut [u8], tail: &mut [u8]) {
    let (redzone, tag) = tail.split_at_mut(8);
    match tag_word(tag) {
        FREE_TAG => {
            turn_wanted(buffer, FREE_FILL);
            turn_wanted(redzone, REDZONE);
        }
        ALLOCATED_TAG => {
            let (r0, r1) = redzone.split_at_mut(4);
            turn_wanted(r0, REDZONE);
            turn_words(r1);
        }
        _ => turn_words(redzone),
    }
    turn_words(tag);
}

/// T0 xor T1.
fn tag_word(tag: &[u8]) -> u32 {
    let words = tag.chunks_exact(4);
    words.fold(0, |tag, word| {
        tag ^ u32::from_be_bytes(word.try_into().expect("four bytes"))
    })
}

fn turn_words(bytes: &mut [u8]) {
    for word in bytes.chunks_exact_mut(4) {
        word.reverse();
    }
}

/// In a run that a word is to fill, the byte wanted in one order and that wanted in the
/// other are exchanged; the guard byte is neither.
fn turn_wanted(run: &mut [u8], word: u32) {
    let wanted = word.to_be_bytes().into_iter().zip(word.to_le_bytes());
    for (byte, (high_first, low_first)) in run.iter_mut().zip(wanted.cycle()) {
        if *byte == high_first {
            *byte = low_first;
        } else if *byte == low_first {
            *byte = high_first;
        }
    }
}
