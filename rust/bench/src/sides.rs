//! Inspect by the library of two images, or of one in two ways, side by side.

use std::cell::RefCell;
use std::hint::black_box;

use combgallop::Profile;

use crate::placed::Lent;
use crate::timing::{race, Times};

/// An image in memory, with the profile that inspect is to name.
pub type Side = (Profile, Lent);

/// Two sides are two images in memory, so both begin pages.
pub const BEHIND: usize = 0;

fn inspect((profile, lent): &Side, rows: &mut [u32]) {
    let (sheet, heap, records) = (lent.sheet.part(), lent.heap.part(), lent.records.part());
    let answer = combgallop::inspect(*profile, sheet, heap, records, &lent.magazines, rows);
    black_box(answer).expect("a lawful image");
}

pub fn rows_of(side: &Side, count: usize) -> Vec<u32> {
    let mut rows = vec![0; 3 * count];
    inspect(side, &mut rows);
    rows
}

/// The verdicts' numbers, without sizes and offsets.
pub fn verdicts_of(side: &Side, count: usize) -> Vec<u32> {
    let rows = rows_of(side, count);
    rows.chunks_exact(3).map(|row| row[1]).collect()
}

pub fn print_head(first: &str, second: &str) {
    println!("| image | {first} | {second} | ratio | middle half of ratios |");
    println!("|---|--:|--:|--:|--:|");
}

/// Prints a row, and answers how many times as long the second takes.
pub fn time_sides(case: &str, both: &[Side; 2], count: usize) -> f64 {
    let [first, second] = race_sides(both, count);
    let (least, most) = second.spread(&first);
    let ratio = second.ratio(&first);
    println!(
        "| {case} | {:.0} | {:.0} | {ratio:.2} | {least:.2} to {most:.2} |",
        first.median(),
        second.median(),
    );
    ratio
}

/// Both fill the same rows.
fn race_sides([first, second]: &[Side; 2], count: usize) -> [Times; 2] {
    let rows = RefCell::new(vec![0; 3 * count]);
    race([
        Box::new(|| inspect(first, &mut rows.borrow_mut())),
        Box::new(|| inspect(second, &mut rows.borrow_mut())),
    ])
}
