//! Every order of refusals.

use differential::magazines::cache;
use differential::samples::dump;
use differential::{Image, FORMS};
use reference::Refusal;

use super::Run;
use crate::counts::Met;
use crate::survey::Room;
use crate::{inspect, report, survey};

/// A refusal's number, and what it is given for.
type Wrong = (u8, fn(&mut Image));

/// All that can be wrong with a call, in the order in which it is refused.
const WRONGS: [Wrong; 7] = [
    (1, |image| image.sheet[0] = 2),
    (2, |image| image.sheet[47] = 0),
    (3, |image| image.heap.push(0)),
    (3, |image| image.log.push(0)),
    (3, |image| {
        let start = image.shape.heap_base;
        image.magazines.resize(4, start);
    }),
    (4, |image| image.magazines[0] ^= 4),
    (11, |_| ()),
];

/// Where the log stands among them, which inspect does not test.
const LOG: usize = 3;

/// The number of the first refusal that a call has to give.
fn first_refusal(wrongs: usize, tests_log: bool) -> Option<u8> {
    let given = (0..WRONGS.len()).filter(|place| wrongs >> place & 1 == 1);
    let mut tested = given.filter(|place| tests_log || *place != LOG);
    tested.next().map(|place| WRONGS[place].0)
}

/// Everything that can be wrong, in every combination: what comes first is given.
#[test]
fn every_order_of_refusals() {
    let mut run = Run::new();
    for form in FORMS {
        for wrongs in 0..1 << WRONGS.len() {
            let mut image = dump(form);
            cache(&mut image, &[0, 2]);
            for (place, (_, make_wrong)) in WRONGS.iter().enumerate() {
                if wrongs >> place & 1 == 1 {
                    make_wrong(&mut image);
                }
            }
            compare_refusals(&image, wrongs, &mut run);
        }
    }
    let refusals = [1, 2, 3, 4, 11].map(|number| Met::Refusal(number, 0));
    run.finish("magazines, every order of refusals", &refusals);
}

fn compare_refusals(image: &Image, wrongs: usize, Run { sequence, counts }: &mut Run) {
    let is_short = wrongs >> (WRONGS.len() - 1) & 1 == 1;
    let (rows, output) = if is_short { (8, 10) } else { (9, 128) };
    let found = inspect::compare(image, rows, sequence, image);
    inspect::note(counts, image, found.clone());
    let room = Room { rows, chain: 3 };
    let surveyed = survey::compare(image, room, sequence, image);
    let text = report::compare(image, output, sequence, image);
    let of_inspect = first_refusal(wrongs, false);
    let of_others = first_refusal(wrongs, true);
    let number = |refusal: Refusal| refusal.number;
    assert_eq!(found.err().map(number), of_inspect, "inspect, {image}");
    assert_eq!(surveyed.err().map(number), of_others, "survey, {image}");
    assert_eq!(text.err().map(number), of_others, "report, {image}");
}
