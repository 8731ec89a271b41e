//! The bytes that are shown of a hurt chunk, and what should stand there.

use reference::{Profile, Verdict};

use super::dump::Dump;
use super::words::{word_bytes, FREE_FILL, GUARD, HEADER_SUM, REDZONE};

/// How many bytes are shown around a hurt one.
const WINDOW: usize = 16;

const HEADER_LENGTH: usize = 8;

/// Bytes of a chunk: where they start, what is found there, and what is expected, none for a
/// byte that may be any.
pub struct Shown {
    pub start: usize,
    pub found: Vec<u8>,
    pub expected: Vec<Option<u8>>,
}

/// What is shown for a verdict, if anything is.
pub fn window(dump: &Dump, index: usize) -> Option<Shown> {
    let verdict = dump.verdicts[index];
    let (expected, start, length) = match verdict {
        Verdict::FillDiffers(offset) | Verdict::RedzoneDiffers(offset) => {
            (free_chunk(dump, index), window_start(offset), WINDOW)
        }
        Verdict::GuardDiffers(offset) => {
            (allocated_chunk(dump, index), window_start(offset), WINDOW)
        }
        Verdict::BadHeader => {
            let header = header(dump, coded_size(dump, index));
            (header.map(Some).to_vec(), 0, HEADER_LENGTH)
        }
        _ => return None,
    };
    Some(Shown {
        start,
        found: dump.chunk(index)[start..start + length].to_vec(),
        expected: expected[start..start + length].to_vec(),
    })
}

/// The offset rounded down to a multiple of 4, less 4, or 0 where that is less.
fn window_start(offset: u32) -> usize {
    let rounded = offset as usize / 4 * 4;
    rounded.saturating_sub(4)
}

/// The chunk as it is found.
fn as_found(dump: &Dump, index: usize) -> Vec<Option<u8>> {
    dump.chunk(index).iter().copied().map(Some).collect()
}

/// Writes bytes that are expected over others.
fn put(chunk: &mut [Option<u8>], at: usize, bytes: &[u8]) {
    for (place, byte) in chunk[at..].iter_mut().zip(bytes) {
        *place = Some(*byte);
    }
}

/// A free chunk (C4): its fill and its redzone, with the tag as found.
fn free_chunk(dump: &Dump, index: usize) -> Vec<Option<u8>> {
    let size = dump.numbers.buffer_size as usize;
    let mut chunk = as_found(dump, index);
    for at in (0..size).step_by(4) {
        put(&mut chunk, at, &word_bytes(dump.order, FREE_FILL));
    }
    for at in [size, size + 4] {
        put(&mut chunk, at, &word_bytes(dump.order, REDZONE));
    }
    chunk
}

/// A granted chunk (C6, C7): no byte of the buffer but the header and the guard of a sized
/// grant is judged. The guard is written last: at the buffer's end it is R0's first byte (C8),
/// and of a coded size below 8 it stands in the header.
fn allocated_chunk(dump: &Dump, index: usize) -> Vec<Option<u8>> {
    let size = dump.numbers.buffer_size as usize;
    let mut chunk = as_found(dump, index);
    chunk[..size].fill(None);
    put(&mut chunk, size, &word_bytes(dump.order, REDZONE));
    if dump.r1(index) != REDZONE {
        let coded_size = coded_size(dump, index);
        if dump.profile == Profile::Userland {
            put(&mut chunk, 0, &header(dump, coded_size));
        }
        put(&mut chunk, coded_size as usize, &[GUARD]);
    }
    chunk
}

/// The size that R1 codes (C9).
pub fn coded_size(dump: &Dump, index: usize) -> u32 {
    dump.r1(index) / 251
}

/// The header of a coded size (U6).
fn header(dump: &Dump, coded_size: u32) -> [u8; HEADER_LENGTH] {
    let words = [coded_size, HEADER_SUM - coded_size];
    let bytes = words.map(|word| word_bytes(dump.order, word)).concat();
    bytes.try_into().expect("two words")
}
