//! Inspect, report and latest transaction.

use std::hint::black_box;

use bench::images::{logged, KINDS, LARGEST, MOST_ROWS};
use differential::{Form, Image};
use reference::Finding;

use crate::limits::{compare, filled, read, scan};
use crate::requirement::Requirement;
use crate::table::{print_sides, SIDES_HEAD};
use crate::timing::{race, Times};

/// Room for any report: 512 lines of at most 18 bytes each, as `511 allocated 112` is,
/// and three short ones.
const MOST_TEXT: usize = 16_384;

const HEAD: &str = "\
| image | faults | call | Rattle | second program | ratio | middle half of ratios | memcmp \
| plain read | byte scan | Rattle to byte scan |
|---|--:|---|--:|--:|--:|--:|--:|--:|--:|--:|";

/// What a line of the report may take beside the judging, in nanoseconds.
const LINE: f64 = 20.0;

/// How many lines a report has beside those of the buffers: the first, the chain's and
/// that of the faults.
const OTHER_LINES: usize = 3;

/// Times inspect and report on the largest images, beside what reading them takes.
pub fn time_reader() -> [Requirement; 5] {
    let mut requirements = [
        Requirement::new("inspect: no slower than the second program", 1.05),
        Requirement::new("report: no slower than the second program", 1.05),
        Requirement::new("inspect of free buffers: to the byte scan", 2.0),
        Requirement::new("report on free buffers: to the byte scan", 2.0),
        Requirement::new("report: to inspect and 20 ns for each line", 1.0),
    ];
    println!("{HEAD}");
    for (size, count) in LARGEST {
        for (kind, make, is_free) in KINDS {
            let case = format!("{size} x {count}, {kind}");
            let image = make(Form::High, size, count);
            time_image(&case, &image, is_free, &mut requirements);
        }
    }
    requirements
}

fn time_image(case: &str, image: &Image, is_free: bool, requirements: &mut [Requirement; 5]) {
    let faults = faults_found(case, image);
    let bytes = [&image.heap[..], &image.records].concat();
    let copy = bytes.clone();
    let fill = filled(image.heap.len());
    let mut rows = vec![0; 3 * image.shape.count];
    let mut findings = vec![Finding::default(); image.shape.count];
    let mut text = vec![0; MOST_TEXT];
    let mut second_text = vec![0; MOST_TEXT];
    let [inspect, second_inspect, report, second_report, memcmp, plain, scanned] = race([
        Box::new(|| inspect_by_library(image, &mut rows)),
        Box::new(|| inspect_by_second(image, &mut findings)),
        Box::new(|| report_by_library(image, &mut text)),
        Box::new(|| report_by_second(image, &mut second_text)),
        Box::new(|| _ = black_box(compare(black_box(&bytes), black_box(&copy)))),
        Box::new(|| _ = black_box(read(black_box(&bytes)))),
        Box::new(|| _ = black_box(scan(black_box(&fill)))),
    ]);
    let limits = [&memcmp, &plain, &scanned];
    let row = format!("{case} | {faults}");
    print_row(&row, "inspect", &inspect, &second_inspect, limits);
    print_row(&row, "report", &report, &second_report, limits);

    let [inspect_limit, report_limit, inspect_scan, report_scan, lines_limit] = requirements;
    let lines = image.shape.count + OTHER_LINES;
    lines_limit.add(case, report.ratio(&inspect.plus(LINE * lines as f64)));
    inspect_limit.add(case, inspect.ratio(&second_inspect));
    report_limit.add(case, report.ratio(&second_report));
    if is_free {
        inspect_scan.add(case, inspect.ratio(&scanned));
        report_scan.add(case, report.ratio(&scanned));
    }
}

fn print_row(row: &str, call: &str, rattle: &Times, second: &Times, limits: [&Times; 3]) {
    let (low, high) = rattle.spread(second);
    let [memcmp, plain, scanned] = limits;
    println!(
        "| {row} | {call} | {:.0} | {:.0} | {:.2} | {low:.2} to {high:.2} \
         | {:.0} | {:.0} | {:.0} | {:.2} |",
        rattle.median(),
        second.median(),
        rattle.ratio(second),
        memcmp.median(),
        plain.median(),
        scanned.median(),
        rattle.ratio(scanned),
    );
}

/// How many faults both sides find. They find the same, so that the same work is timed.
fn faults_found(case: &str, image: &Image) -> usize {
    let count = image.shape.count;
    let mut rows = vec![0; 3 * count];
    let mut findings = vec![Finding::default(); count];
    inspect_by_library(image, &mut rows);
    inspect_by_second(image, &mut findings);
    let second_rows: Vec<u32> = findings
        .iter()
        .flat_map(|f| [f.index, f.verdict.number(), f.verdict.value()])
        .collect();
    assert_eq!(rows, second_rows, "{case}");

    let mut text = vec![0; MOST_TEXT];
    let mut second_text = vec![0; MOST_TEXT];
    report_by_library(image, &mut text);
    report_by_second(image, &mut second_text);
    assert_eq!(text, second_text, "{case}");

    let verdicts = findings.iter().map(|finding| finding.verdict.number());
    verdicts.filter(|number| *number >= 20).count()
}

pub fn inspect_by_library(image: &Image, rows: &mut [u32]) {
    let (sheet, heap, records) = (&image.sheet, &image.heap, &image.records);
    let (profile, list) = (combgallop::Profile::Kernel, &image.magazines);
    let answer = combgallop::inspect(profile, sheet, heap, records, list, rows);
    black_box(answer).expect("a lawful image");
}

pub fn inspect_by_second(image: &Image, rows: &mut [Finding]) {
    let (sheet, heap, records) = (&image.sheet, &image.heap, &image.records);
    let (profile, list) = (reference::Profile::Kernel, &image.magazines);
    let answer = reference::inspect(profile, sheet, heap, records, list, rows);
    black_box(answer).expect("a lawful image");
}

fn report_by_library(image: &Image, output: &mut [u8]) {
    let Image {
        sheet,
        heap,
        records,
        log,
        magazines,
        ..
    } = image;
    let profile = combgallop::Profile::Kernel;
    let answer = combgallop::report(profile, sheet, heap, records, magazines, log, output);
    black_box(answer).expect("a lawful image");
}

fn report_by_second(image: &Image, output: &mut [u8]) {
    let Image {
        sheet,
        heap,
        records,
        log,
        magazines,
        ..
    } = image;
    let profile = reference::Profile::Kernel;
    let answer = reference::report(profile, sheet, heap, records, magazines, log, output);
    black_box(answer).expect("a lawful image");
}

/// Times the latest transaction of the last buffer, with the longest log.
pub fn time_latest() {
    println!("{SIDES_HEAD}");
    for (kind, image) in logged(Form::High) {
        let case = format!("latest, 112 x 512, {MOST_ROWS} rows, {kind}");
        time_log(&case, &image, image.shape.count as u32 - 1);
    }
}

fn time_log(case: &str, image: &Image, buffer: u32) {
    let Image {
        sheet,
        heap,
        records,
        log,
        ..
    } = image;
    let by_library = || {
        let profile = combgallop::Profile::Kernel;
        combgallop::latest(profile, sheet, heap, records, log, buffer, MOST_ROWS)
    };
    let by_second = || {
        let profile = reference::Profile::Kernel;
        reference::latest(profile, sheet, heap, records, log, buffer, MOST_ROWS)
    };
    let found = format!("{:?}", by_library());
    assert_eq!(found, format!("{:?}", by_second()), "{case}");
    let [rattle, second] = race([
        Box::new(|| _ = black_box(by_library())),
        Box::new(|| _ = black_box(by_second())),
    ]);
    print_sides(case, &rattle, &second);
}
