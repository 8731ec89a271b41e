//! What a call is lent, between guards that it must not touch.

use std::fmt::Display;
use std::hint::black_box;

use differential::{Image, Sequence};
use reference::Refusal;

const GUARD: u8 = 0xc3;

/// Bytes or words lent from any place, with guards before and after them.
pub struct Lent<T> {
    all: Vec<T>,
    start: usize,
    end: usize,
}

impl<T: Copy + PartialEq + From<u8>> Lent<T> {
    fn new(part: &[T], sequence: &mut Sequence) -> Lent<T> {
        let guard = T::from(GUARD);
        let start = sequence.between(1, 16);
        let mut all = vec![guard; start];
        all.extend_from_slice(part);
        let end = all.len();
        all.resize(end + sequence.between(1, 16), guard);
        Lent { all, start, end }
    }

    pub fn part(&self) -> &[T] {
        &self.all[self.start..self.end]
    }

    pub fn part_mut(&mut self) -> &mut [T] {
        &mut self.all[self.start..self.end]
    }

    /// Whether the part is as expected and the guards are as they were.
    fn holds(&self, expected: &[T]) -> bool {
        // What was lent for reading alone might have been changed all the same, so the
        // compiler is to look, not to infer.
        let all = black_box(&self.all);
        let (before, after) = (&all[..self.start], &all[self.end..]);
        let guard = T::from(GUARD);
        let are_guards = before.iter().chain(after).all(|item| *item == guard);
        are_guards && all[self.start..self.end] == *expected
    }
}

/// The areas and the log of an image and its magazine list, as a call is lent them.
pub struct Areas {
    pub sheet: Lent<u8>,
    pub heap: Lent<u8>,
    pub records: Lent<u8>,
    pub log: Lent<u8>,
    pub magazines: Lent<u32>,
}

impl Areas {
    pub fn new(image: &Image, sequence: &mut Sequence) -> Areas {
        Areas {
            sheet: Lent::new(&image.sheet, sequence),
            heap: Lent::new(&image.heap, sequence),
            records: Lent::new(&image.records, sequence),
            log: Lent::new(&image.log, sequence),
            magazines: Lent::new(&image.magazines, sequence),
        }
    }

    /// Every byte and word is as in the image: a call that reads has changed none, and one that
    /// writes has written what the reference wrote.
    pub fn assert_hold(&self, image: &Image, story: &dyn Display) {
        assert!(self.sheet.holds(&image.sheet), "sheet differs: {story}");
        assert!(self.heap.holds(&image.heap), "heap differs: {story}");
        let records_agree = self.records.holds(&image.records);
        assert!(records_agree, "records differ: {story}");
        assert!(self.log.holds(&image.log), "log differs: {story}");
        let magazines_agree = self.magazines.holds(&image.magazines);
        assert!(magazines_agree, "magazines differ: {story}");
    }
}

/// All 64 bits of an answer.
pub fn expected_answer(value: Result<u32, Refusal>) -> u64 {
    match value {
        Ok(value) => u64::from(value) << 32,
        Err(refused) => u64::from(refused.number) | u64::from(refused.detail) << 8,
    }
}
