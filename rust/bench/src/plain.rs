//! The library's calls beside the same calls in plain C.

use std::hint::black_box;

use bench::images::{all_cached, all_free, half_allocated, hurt, logged, Make, LARGEST, MOST_ROWS};
use differential::{Form, Image, KERNEL_LONG_FORMS};
use reference::Order;

use crate::calls::{pair_by_library, THREAD, UPTIME};
use crate::placed::Lent;
use crate::requirement::Requirement;
use crate::timing::{race, Times};

type Kind = (&'static str, Make);

const KINDS: [Kind; 3] = [
    ("all free", all_free),
    ("half allocated", half_allocated),
    ("hurt", hurt),
];

pub const HEAD: &str = "\
| call | Rattle | plain C | ratio | middle half of ratios |
|---|--:|--:|--:|--:|";

/// The profile that the C is written for.
const KERNEL: combgallop::Profile = combgallop::Profile::Kernel;

/// Where malloc puts a large area, behind a page's start.
const BEHIND: usize = 16;

/// Times the calls by the library and in plain C, on images of both orders. There are
/// limits for those with the high byte first.
pub fn time_plain() -> Vec<Requirement> {
    println!("{HEAD}");
    let calls = [time_inspect, time_latest, time_pairs];
    let [high, _low] = KERNEL_LONG_FORMS.map(|form| calls.map(|time| time(form)));
    Vec::from(high)
}

/// Times inspect with every buffer in a magazine: a list of n words, in order and about half
/// the buffers apart.
pub fn time_listed() {
    println!("{HEAD}");
    for form in KERNEL_LONG_FORMS {
        let call = named("inspect", form);
        for (size, count) in LARGEST {
            for (order, step) in [("in order", 1), ("in long jumps", count / 2 + 1)] {
                let image = all_cached(form, size, count, step);
                assert_eq!(faults_found(&image), 0, "{size} x {count}");
                let [rattle, plain] = race_inspect(&Lent::new(&image, BEHIND), count);
                let row = format!("{call}, {size} x {count}, all in magazines, words {order}");
                print_row(&row, &rattle, &plain);
            }
        }
    }
}

/// Times inspect of long buffers where the areas begin pages.
pub fn time_paged() {
    println!("{HEAD}");
    let (size, count) = LARGEST[0];
    for (kind, make) in KINDS {
        let image = make(Form::High, size, count);
        let [rattle, plain] = race_inspect(&Lent::new(&image, 0), count);
        print_row(
            &format!("inspect, {size} x {count}, {kind}"),
            &rattle,
            &plain,
        );
    }
}

/// A call by its name, and by the order of its images where that is not the older one.
fn named(call: &str, form: Form) -> String {
    match form.order() {
        Order::HighFirst => call.to_string(),
        Order::LowFirst => format!("{call}, low first"),
    }
}

fn time_inspect(form: Form) -> Requirement {
    let call = named("inspect", form);
    let mut requirement = Requirement::new(&format!("{call}: to plain C"), 1.25);
    for (size, count) in LARGEST {
        for (kind, make) in KINDS {
            let image = make(form, size, count);
            let faults = faults_found(&image);
            let [rattle, plain] = race_inspect(&Lent::new(&image, BEHIND), count);
            let case = format!("{call}, {size} x {count}, {kind}");
            let row = format!("{case}, {faults} faults");
            requirement.add(&case, print_row(&row, &rattle, &plain));
        }
    }
    requirement
}

/// Prints a row, and answers the ratio.
fn print_row(row: &str, rattle: &Times, plain: &Times) -> f64 {
    let ratio = rattle.ratio(plain);
    let (low, high) = rattle.spread(plain);
    println!(
        "| {row} | {:.0} | {:.0} | {ratio:.2} | {low:.2} to {high:.2} |",
        rattle.median(),
        plain.median(),
    );
    ratio
}

fn race_inspect(lent: &Lent, count: usize) -> [Times; 2] {
    let mut rows = vec![0; 3 * count];
    let mut plain_rows = rows.clone();
    let (sheet, heap, records) = (lent.sheet.part(), lent.heap.part(), lent.records.part());
    let list = &lent.magazines;
    race([
        Box::new(|| {
            let rows = black_box(&mut rows);
            let heap = black_box(heap);
            check(combgallop::inspect_answer(KERNEL, sheet, heap, records, list, rows).0);
        }),
        Box::new(|| {
            let rows = black_box(&mut plain_rows);
            let heap = black_box(heap);
            check(timed::plain_inspect(sheet, heap, records, list, rows));
        }),
    ])
}

/// How many faults both find. Answers and rows are the same, so that the same work is
/// timed.
fn faults_found(image: &Image) -> usize {
    let (sheet, heap, records) = (&image.sheet, &image.heap, &image.records);
    let mut rows = vec![0; 3 * image.shape.count];
    let mut plain_rows = rows.clone();
    let list = &image.magazines;
    let answer = combgallop::inspect_answer(KERNEL, sheet, heap, records, list, &mut rows);
    let plain_answer = timed::plain_inspect(sheet, heap, records, list, &mut plain_rows);
    assert_eq!(answer.0, plain_answer, "inspect");
    assert_eq!(rows, plain_rows, "inspect");
    rows.chunks_exact(3).filter(|row| row[1] >= 20).count()
}

/// Fails where a call was refused.
fn check(answer: u64) {
    let refusal = black_box(answer) as u8;
    assert_eq!(refusal, 0, "a lawful call");
}

fn time_latest(form: Form) -> Requirement {
    let call = named("latest", form);
    let mut requirement = Requirement::new(&format!("{call}: to plain C"), 1.25);
    for (kind, image) in logged(form) {
        let index = image.shape.count as u32 - 1;
        let Image {
            sheet,
            heap,
            records,
            log,
            ..
        } = &image;
        let by_library =
            || combgallop::latest_answer(KERNEL, sheet, heap, records, log, index, MOST_ROWS);
        let by_plain = || timed::plain_latest(sheet, heap, records, log, index, MOST_ROWS);
        assert_eq!(by_library().0, by_plain(), "latest, {kind}");
        let [rattle, plain] = race([
            Box::new(|| check(by_library().0)),
            Box::new(|| check(by_plain())),
        ]);
        let case = format!("{call}, 112 x 512, {MOST_ROWS} rows, {kind}");
        requirement.add(&case, print_row(&case, &rattle, &plain));
    }
    requirement
}

/// An allocate and the free of the same buffer, after which the chain is as before.
fn time_pairs(form: Form) -> Requirement {
    let call = named("allocate and free", form);
    let mut requirement = Requirement::new(&format!("{call}: to plain C"), 1.5);
    for (size, count) in LARGEST {
        let grant = size as u32 - 4;
        let [mut image, mut plain_image] = [(); 2].map(|()| all_free(form, size, count));
        pair_by_library(&mut image, grant);
        pair_by_plain(&mut plain_image, grant);
        assert_eq!(image.input(), plain_image.input(), "allocate and free");
        let [rattle, plain] = race([
            Box::new(|| pair_by_library(&mut image, grant)),
            Box::new(|| pair_by_plain(&mut plain_image, grant)),
        ]);
        let case = format!("{call}, {size} x {count}");
        requirement.add(&case, print_row(&case, &rattle, &plain));
    }
    requirement
}

fn pair_by_plain(image: &mut Image, grant: u32) {
    let Image {
        sheet,
        heap,
        records,
        ..
    } = image;
    let grant = Some(black_box(grant));
    let answer = timed::plain_allocate(sheet, heap, records, grant, UPTIME, THREAD);
    check(answer);
    let address = (answer >> 32) as u32;
    let answer = timed::plain_free(sheet, heap, records, address, grant, UPTIME, THREAD);
    check(answer);
}
