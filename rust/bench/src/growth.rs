//! How inspect grows with the count of buffers.

use bench::images::{all_free, chained_far, half_allocated, Make};
use differential::Form;

use crate::reader::inspect_by_library;
use crate::requirement::Requirement;
use crate::timing::race;

/// A size, a count, and how the images are made; they have once, twice and four times
/// the count.
type Series = (&'static str, usize, usize, Make);

const SERIES: [Series; 6] = [
    ("all free", 4096, 3, all_free),
    ("all free", 24, 128, all_free),
    ("all free", 112, 128, all_free),
    ("all free, chain in long jumps", 24, 128, chained_far),
    ("all free, chain in long jumps", 112, 128, chained_far),
    ("half allocated", 112, 128, half_allocated),
];

/// Times inspect at n, 2n and 4n.
pub fn time_growth() -> Requirement {
    let mut requirement = Requirement::new("inspect: 4n to n", 4.6);
    println!("| images | n | at n | at 2n | at 4n | 2n to n | 4n to n |");
    println!("|---|--:|--:|--:|--:|--:|--:|");
    for (kind, size, count, make) in SERIES {
        let images = [1, 2, 4].map(|times| make(Form::High, size, times * count));
        let mut rows = images
            .each_ref()
            .map(|image| vec![0; 3 * image.shape.count]);
        let [first, second, third] = &images;
        let [first_rows, second_rows, third_rows] = &mut rows;
        let [once, twice, four_times] = race([
            Box::new(|| inspect_by_library(first, first_rows)),
            Box::new(|| inspect_by_library(second, second_rows)),
            Box::new(|| inspect_by_library(third, third_rows)),
        ]);
        let case = format!("{size}-byte buffers, {kind}");
        println!(
            "| {case} | {count} | {:.0} | {:.0} | {:.0} | {:.2} | {:.2} |",
            once.median(),
            twice.median(),
            four_times.median(),
            twice.ratio(&once),
            four_times.ratio(&once),
        );
        requirement.add(&case, four_times.ratio(&once));
    }
    requirement
}
