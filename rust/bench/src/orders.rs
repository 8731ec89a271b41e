//! Inspect of an image with the low byte first, and of one of the userland profile, beside
//! the same image of the kernel profile with the high byte first.

use bench::images::{KINDS, LARGEST};
use combgallop::Profile;
use differential::Form;

use crate::placed::Lent;
use crate::requirement::Requirement;
use crate::sides::{print_head, rows_of, time_sides, verdicts_of, BEHIND};

/// The kind whose hurts follow from what they find: no userland image of it is the same.
const HURT: &str = "hurt";

/// Times inspect on the largest images in both orders.
pub fn time_orders() -> Requirement {
    let mut requirement = Requirement::new("inspect: low first to high first", 1.1);
    print_head("high first", "low first");
    for (size, count) in LARGEST {
        for (kind, make, _) in KINDS {
            let case = format!("{size} x {count}, {kind}");
            let both = [Form::High, Form::Low].map(|form| {
                let lent = Lent::new(&make(form, size, count), BEHIND);
                (Profile::Kernel, lent)
            });
            let [high, low] = both.each_ref().map(|side| rows_of(side, count));
            assert_eq!(high, low, "{case}");
            requirement.add(&case, time_sides(&case, &both, count));
        }
    }
    requirement
}

/// Times inspect on the largest images of both profiles, high byte first. There is no
/// requirement for this.
pub fn time_profiles() {
    print_head("kernel", "userland");
    for (size, count) in LARGEST {
        for (kind, make, _) in KINDS.into_iter().filter(|(kind, ..)| *kind != HURT) {
            let case = format!("{size} x {count}, {kind}");
            let both = [
                (Profile::Kernel, Form::High),
                (Profile::Userland, Form::UserHigh),
            ];
            let both = both.map(|(profile, form)| {
                let lent = Lent::new(&make(form, size, count), BEHIND);
                (profile, lent)
            });
            let [kernel, userland] = both.each_ref().map(|side| verdicts_of(side, count));
            assert_eq!(kernel, userland, "{case}");
            time_sides(&case, &both, count);
        }
    }
}
