//! The rows that set the two sides against each other.

use crate::timing::Times;

pub const SIDES_HEAD: &str = "\
| call | Rattle | second program | ratio | middle half of ratios |
|---|--:|--:|--:|--:|";

pub fn print_sides(case: &str, rattle: &Times, second: &Times) {
    let (low, high) = rattle.spread(second);
    println!(
        "| {case} | {:.0} | {:.0} | {:.2} | {low:.2} to {high:.2} |",
        rattle.median(),
        second.median(),
        rattle.ratio(second),
    );
}
