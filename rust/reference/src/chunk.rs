//! One chunk: "buffer bytes; then redzone words R0 and R1; then T0, the record's
//! address, and T1". How it is written and how it is judged by itself.

use crate::profile::Profile;
use crate::size_code::{decode, SizeCode};
use crate::verdict::Verdict;
use crate::words::{put_word, word, word_bytes, Order};

/// "The tag word T0 xor T1 has two named patterns."
#[derive(Clone, Copy, PartialEq, Eq, Debug)]
pub enum Pattern {
    Allocated,
    Free,
}

const ALLOCATED_TAG: u32 = 0xa110_c8ed;
const FREE_TAG: u32 = 0xf4ee_f4ee;

/// The words a buffer and its redzone repeat. Their bytes "follow the order, so the
/// fill is ef be ad de" with the low byte first.
const FREE_FILL: u32 = 0xdead_beef;
const GRANTED_FILL: u32 = 0xbadd_cafe;
const REDZONE: u32 = 0xfeed_face;

/// The guard is one byte at its offset, whatever the order.
const GUARD: u8 = 0xbb;

/// What was granted: the whole buffer, or as many bytes of it as the client's request.
#[derive(Clone, Copy, PartialEq, Eq, Debug)]
pub enum Grant {
    Whole,
    Sized(u32),
}

/// The bytes of one chunk, its buffer size, the order of its words and its profile.
#[derive(Clone, Copy)]
pub struct Chunk<'a> {
    profile: Profile,
    order: Order,
    bytes: &'a [u8],
    size: usize,
}

impl<'a> Chunk<'a> {
    pub fn new(profile: Profile, order: Order, bytes: &'a [u8], size: usize) -> Chunk<'a> {
        Chunk {
            profile,
            order,
            bytes,
            size,
        }
    }

    fn r0(&self) -> &'a [u8] {
        &self.bytes[self.size..self.size + 4]
    }

    fn r1(&self) -> u32 {
        word(self.order, self.bytes, self.size + 4)
    }

    pub fn t0(&self) -> u32 {
        word(self.order, self.bytes, self.size + 8)
    }

    fn t1(&self) -> u32 {
        word(self.order, self.bytes, self.size + 12)
    }

    /// The bytes of a word in this chunk's order.
    fn wanted(&self, word: u32) -> [u8; 4] {
        word_bytes(self.order, word)
    }

    /// "0xa110c8ed when allocated and 0xf4eef4ee when free"; none for any other xor.
    pub fn pattern(&self) -> Option<Pattern> {
        match self.t0() ^ self.t1() {
            ALLOCATED_TAG => Some(Pattern::Allocated),
            FREE_TAG => Some(Pattern::Free),
            _ => None,
        }
    }

    /// "Free pattern: 25 if the fill differs; 26 if the redzone differs; each with
    /// the first differing byte offset from the buffer's start. Else 0, free."
    pub fn judge_free(&self) -> Verdict {
        let buffer = &self.bytes[..self.size];
        let redzone = &self.bytes[self.size..self.size + 8];
        if let Some(offset) = first_difference(buffer, self.wanted(FREE_FILL)) {
            return Verdict::FillDiffers(offset as u32);
        }
        if let Some(offset) = first_difference(redzone, self.wanted(REDZONE)) {
            return Verdict::RedzoneDiffers((self.size + offset) as u32);
        }
        Verdict::Free
    }

    /// "R1 = 0xfeedface: 28 with the first differing offset if R0 differs from
    /// 0xfeedface; else 1, whole." Any other R1 is judged as a size code.
    pub fn judge_allocated(&self) -> Verdict {
        if self.r1() != REDZONE {
            return self.judge_sized();
        }
        match first_difference(self.r0(), self.wanted(REDZONE)) {
            Some(offset) => Verdict::GuardDiffers((self.size + offset) as u32),
            None => Verdict::Whole,
        }
    }

    /// 27, 31 or 32 if the decoder says that the code is bad. "Then s = R1/251: 28 at s if
    /// that byte isn't 0xbb; else 28 at R0's first byte that differs from fe ed fa ce (with
    /// bb first when s is buffer size)"; the header is judged after that. With the low byte
    /// first these are ce fa ed fe, and "a full-size grant's R0 word reads 0xfeedfabb".
    fn judge_sized(&self) -> Verdict {
        let s = match decode(self.r1(), self.size) {
            SizeCode::Size(s) => s,
            SizeCode::Bad(hurt) => return Verdict::BadSizeCode(hurt),
        };
        if self.bytes[s] != GUARD {
            return Verdict::GuardDiffers(s as u32);
        }
        let mut wanted = self.wanted(REDZONE);
        if s == self.size {
            wanted[0] = GUARD;
        }
        match first_difference(self.r0(), wanted) {
            Some(offset) => Verdict::GuardDiffers((self.size + offset) as u32),
            None => self.judge_header(s as u32),
        }
    }

    /// "New verdict 30, header wrong, comes after 28 and before 2, and also when the
    /// coded size is below 9." "Verdict 2 and free name the request": the coded size less
    /// the header's length. Without a header no coded size is too small and none wrong.
    fn judge_header(&self, coded_size: u32) -> Verdict {
        let length = self.profile.header_length();
        let is_sound = coded_size > length
            && self.bytes[..length as usize] == self.profile.header(self.order, coded_size);
        if is_sound {
            Verdict::Allocated(coded_size - length)
        } else {
            Verdict::BadHeader
        }
    }
}

/// The offset of the first byte that differs from the four wanted bytes repeated.
fn first_difference(bytes: &[u8], wanted: [u8; 4]) -> Option<usize> {
    bytes
        .iter()
        .zip(wanted.iter().cycle())
        .position(|(byte, wanted)| byte != wanted)
}

/// Fills bytes with a word repeated.
fn fill(order: Order, bytes: &mut [u8], word: u32) {
    for (byte, wanted) in bytes.iter_mut().zip(word_bytes(order, word).iter().cycle()) {
        *byte = *wanted;
    }
}

/// "T0, the record's address, and T1": the two words whose xor is the pattern.
fn put_tag(order: Order, chunk: &mut [u8], size: usize, record_address: u32, tag: u32) {
    put_word(order, chunk, size + 8, record_address);
    put_word(order, chunk, size + 12, record_address ^ tag);
}

/// "Free: the buffer repeats de ad be ef; R0 and R1 are both 0xfeedface."
pub fn write_free(order: Order, chunk: &mut [u8], size: usize, record_address: u32) {
    fill(order, &mut chunk[..size], FREE_FILL);
    fill(order, &mut chunk[size..size + 8], REDZONE);
    put_tag(order, chunk, size, record_address, FREE_TAG);
}

/// "Granted: the buffer is first filled with ba dd ca fe. A whole grant keeps both
/// redzone words. A grant of s bytes puts 0xbb at offset s and 251*s+1 in R1." Here s is
/// the coded size, and "the first 8 buffer bytes are a header" where the profile has one;
/// "whole grants have none".
pub fn write_granted(
    profile: Profile,
    order: Order,
    chunk: &mut [u8],
    size: usize,
    record_address: u32,
    grant: Grant,
) {
    fill(order, &mut chunk[..size], GRANTED_FILL);
    if let Grant::Sized(request) = grant {
        let s = request + profile.header_length();
        let header = profile.header(order, s);
        chunk[..header.len()].copy_from_slice(&header);
        chunk[s as usize] = GUARD;
        put_word(order, chunk, size + 4, 251 * s + 1);
    }
    put_tag(order, chunk, size, record_address, ALLOCATED_TAG);
}
