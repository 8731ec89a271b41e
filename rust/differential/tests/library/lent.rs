//! What a call is lent, between guards that it must not touch.

use std::fmt::Display;
use std::hint::black_box;

use differential::{Image, Sequence};

const GUARD: u8 = 0xc3;

/// A part lent to a call, with guards before and after it in the same allocation.
pub struct Guarded<T> {
    all: Vec<T>,
    start: usize,
    length: usize,
}

impl<T: Copy + PartialEq + From<u8>> Guarded<T> {
    /// The guards' lengths differ from time to time, and so does the part's alignment.
    pub fn new(part: &[T], sequence: &mut Sequence) -> Guarded<T> {
        let guard = T::from(GUARD);
        let start = sequence.between(1, 16);
        let mut all = vec![guard; start];
        all.extend_from_slice(part);
        all.resize(all.len() + sequence.between(1, 16), guard);
        Guarded {
            all,
            start,
            length: part.len(),
        }
    }

    pub fn part(&self) -> &[T] {
        &self.all[self.start..self.start + self.length]
    }

    pub fn part_mut(&mut self) -> &mut [T] {
        &mut self.all[self.start..self.start + self.length]
    }

    /// Whether the part is as expected and the guards are as they were.
    pub fn holds(&self, expected: &[T]) -> bool {
        // What was lent for reading alone might have been changed all the same, so the
        // compiler is to look, not to infer.
        let all = black_box(&self.all);
        let (before, rest) = all.split_at(self.start);
        let (part, after) = rest.split_at(self.length);
        let guard = T::from(GUARD);
        part == expected && before.iter().chain(after).all(|item| *item == guard)
    }
}

/// What stands in lent numbers before a call: each is one more than the one before it.
pub fn numbered(first: u32, length: usize) -> Vec<u32> {
    (first..).take(length).collect()
}

/// The areas and the log of an image and its magazine list, as a call is lent them.
pub struct Lent {
    pub sheet: Guarded<u8>,
    pub heap: Guarded<u8>,
    pub records: Guarded<u8>,
    pub log: Guarded<u8>,
    pub magazines: Guarded<u32>,
}

impl Lent {
    pub fn new(image: &Image, sequence: &mut Sequence) -> Lent {
        Lent {
            sheet: Guarded::new(&image.sheet, sequence),
            heap: Guarded::new(&image.heap, sequence),
            records: Guarded::new(&image.records, sequence),
            log: Guarded::new(&image.log, sequence),
            magazines: Guarded::new(&image.magazines, sequence),
        }
    }

    /// The sheet, the heap and the records, for a call that may write to them.
    pub fn areas(&mut self) -> (&mut [u8], &mut [u8], &mut [u8]) {
        let (sheet, heap) = (self.sheet.part_mut(), self.heap.part_mut());
        (sheet, heap, self.records.part_mut())
    }

    /// Every byte and word is as in the image. A call that reads has changed none, and one that
    /// writes has written what the reference wrote.
    pub fn assert_holds(&self, image: &Image, story: &dyn Display) {
        assert!(self.sheet.holds(&image.sheet), "sheet differs: {story}");
        assert!(self.heap.holds(&image.heap), "heap differs: {story}");
        let records_agree = self.records.holds(&image.records);
        assert!(records_agree, "records differ: {story}");
        assert!(self.log.holds(&image.log), "log differs: {story}");
        let magazines_agree = self.magazines.holds(&image.magazines);
        assert!(magazines_agree, "magazines differ: {story}");
    }
}
