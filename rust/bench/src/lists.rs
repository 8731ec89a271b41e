//! Inspect with a magazine list of n words, beside inspect without one.

use bench::images::{all_cached, all_free, LARGEST};
use combgallop::Profile;
use differential::{Form, Image};

use crate::placed::Lent;
use crate::sides::{print_head, time_sides, verdicts_of, Side, BEHIND};

/// The verdicts on buffers that are free on the chain, in magazines, and in neither.
const FREE: u32 = 0;
const CACHED: u32 = 3;
const OFF_CHAIN: u32 = 23;

/// Times inspect of the largest images with every buffer in a magazine: beside as many free
/// buffers on the chain, and beside the same image without its list.
pub fn time_lists() {
    print_head("no list", "list of n words");
    for (size, count) in LARGEST {
        let case = format!("{size} x {count}, all free: on the chain, in magazines");
        let chained = all_free(Form::High, size, count);
        let cached = all_cached(Form::High, size, count, 1);
        time_list(&case, &chained, FREE, &cached);

        // The words of the second list are about half the buffers apart.
        let far = all_cached(Form::High, size, count, count / 2 + 1);
        for (order, listed) in [("in order", &cached), ("in long jumps", &far)] {
            let mut without = listed.clone();
            without.magazines.clear();
            let case = format!("{size} x {count}, all in magazines, words {order}");
            time_list(&case, &without, OFF_CHAIN, listed);
        }
    }
}

/// Prints a row. What is found of all buffers is `verdict` without the list, and cached with
/// it.
fn time_list(case: &str, without: &Image, verdict: u32, listed: &Image) {
    let count = listed.shape.count;
    let both: [Side; 2] =
        [without, listed].map(|image| (Profile::Kernel, Lent::new(image, BEHIND)));
    let [before, after] = both.each_ref().map(|side| verdicts_of(side, count));
    assert_eq!(before, vec![verdict; count], "{case}");
    assert_eq!(after, vec![CACHED; count], "{case}");
    time_sides(case, &both, count);
}
