//! The fill test and the fill by themselves.

use std::array::from_fn;
use std::hint::black_box;

use timed::{difference_by_bytes, fill, first_difference};

use crate::limits::{clear, compare, filled};
use crate::requirement::Requirement;
use crate::timing::{race, Call, Times};

const LENGTHS: [usize; 6] = [8, 24, 112, 256, 1024, 4096];

/// The free fill.
const WORD: u32 = 0xdead_beef;

/// The lengths at which there is little to gain by eights.
const SHORT: [usize; 2] = [8, 24];

/// The length at which the run itself takes nearly all of the time.
const LONGEST: usize = 4096;

/// Where the run differs, in the first eight bytes.
const PLACES: usize = 8;

/// How many calls are made at a time. Reaching a boxed call takes about as long as the
/// shortest of these do, and the same one may differ by a seventh from race to race; of so
/// many in a row it does not.
const AT_A_TIME: usize = 64;

/// Times the fill test where nothing differs.
pub fn time_equal() -> [Requirement; 2] {
    let mut requirements = [
        Requirement::new("fill test at 4,096 bytes: to memcmp", 1.5),
        Requirement::new(
            "fill test at 8 and 24 bytes: no slower than byte by byte",
            1.05,
        ),
    ];
    println!("| bytes | by eights | byte by byte | memcmp | to byte by byte | to memcmp |");
    println!("|--:|--:|--:|--:|--:|--:|");
    for length in LENGTHS {
        time_equal_run(length, &mut requirements);
    }
    requirements
}

fn time_equal_run(length: usize, requirements: &mut [Requirement; 2]) {
    let run = filled(length);
    let copy = run.clone();
    assert_eq!(first_difference(&run, WORD), None, "{length} bytes");
    assert_eq!(difference_by_bytes(&run, WORD), None, "{length} bytes");
    assert!(compare(&run, &copy), "{length} bytes");
    let [by_eights, by_bytes, memcmp] = race([
        test_by_eights(&run),
        test_by_bytes(&run),
        many(|| _ = black_box(compare(black_box(&run), black_box(&copy)))),
    ]);
    let to_bytes = by_eights.ratio(&by_bytes);
    let to_memcmp = by_eights.ratio(&memcmp);
    println!(
        "| {length} | {:.1} | {:.1} | {:.1} | {to_bytes:.2} | {to_memcmp:.2} |",
        of_one(&by_eights),
        of_one(&by_bytes),
        of_one(&memcmp),
    );
    let case = format!("{length} bytes");
    let [memcmp_limit, bytes_limit] = requirements;
    if length == LONGEST {
        memcmp_limit.add(&case, to_memcmp);
    }
    if SHORT.contains(&length) {
        bytes_limit.add(&case, to_bytes);
    }
}

fn many<'a>(mut call: impl FnMut() + 'a) -> Call<'a> {
    Box::new(move || {
        for _ in 0..AT_A_TIME {
            call();
        }
    })
}

/// The median of a single call.
fn of_one(times: &Times) -> f64 {
    times.median() / AT_A_TIME as f64
}

fn test_by_eights(run: &[u8]) -> Call<'_> {
    many(|| _ = black_box(first_difference(black_box(run), black_box(WORD))))
}

fn test_by_bytes(run: &[u8]) -> Call<'_> {
    many(|| _ = black_box(difference_by_bytes(black_box(run), black_box(WORD))))
}

/// Times the fill test where one of the first eight bytes differs.
pub fn time_early() -> Requirement {
    let what = "difference in the first eight bytes: no slower than byte by byte";
    let mut requirement = Requirement::new(what, 1.05);
    print!("| bytes ");
    for place in 0..PLACES {
        print!("| at {place} ");
    }
    println!("| worst at | by eights | byte by byte |");
    println!("|--:{}|--:|--:|--:|", "|--:".repeat(PLACES));
    for length in LENGTHS {
        time_early_run(length, &mut requirement);
    }
    requirement
}

/// One row: the ratio for each place, and the times for the place with the highest.
fn time_early_run(length: usize, requirement: &mut Requirement) {
    let runs: [Vec<u8>; PLACES] = from_fn(|place| differing(length, place));
    let times: [Times; 2 * PLACES] = race(from_fn(|call| {
        let run = &runs[call / 2];
        if call % 2 == 0 {
            test_by_eights(run)
        } else {
            test_by_bytes(run)
        }
    }));
    let ratio = |place: usize| times[2 * place].ratio(&times[2 * place + 1]);
    let ratios: [f64; PLACES] = from_fn(ratio);
    print!("| {length} ");
    for (place, ratio) in ratios.into_iter().enumerate() {
        print!("| {ratio:.2} ");
        requirement.add(&format!("{length} bytes, byte {place}"), ratio);
    }
    let worst = (0..PLACES).max_by(|a, b| ratios[*a].total_cmp(&ratios[*b]));
    let worst = worst.expect("there are places");
    println!(
        "| {worst} | {:.1} | {:.1} |",
        of_one(&times[2 * worst]),
        of_one(&times[2 * worst + 1]),
    );
}

/// Times the fill test where a later byte differs: the ninth, the middle one or the last.
pub fn time_late() {
    println!("| bytes | differs at | by eights | byte by byte | ratio | middle half of ratios |");
    println!("|--:|--:|--:|--:|--:|--:|");
    for &length in &LENGTHS[1..] {
        for place in [PLACES, length / 2, length - 1] {
            let run = differing(length, place);
            let [by_eights, by_bytes] = race([test_by_eights(&run), test_by_bytes(&run)]);
            let ratio = by_eights.ratio(&by_bytes);
            let (low, high) = by_eights.spread(&by_bytes);
            println!(
                "| {length} | {place} | {:.1} | {:.1} | {ratio:.2} | {low:.2} to {high:.2} |",
                of_one(&by_eights),
                of_one(&by_bytes),
            );
        }
    }
}

/// The free fill with one byte changed, which both forms of the test find.
fn differing(length: usize, place: usize) -> Vec<u8> {
    let mut run = filled(length);
    run[place] ^= 0xff;
    let story = format!("{length} bytes, byte {place}");
    assert_eq!(first_difference(&run, WORD), Some(place), "{story}");
    assert_eq!(difference_by_bytes(&run, WORD), Some(place), "{story}");
    run
}

/// Times the fill beside `memset`.
pub fn time_fill() {
    println!("| bytes | fill | memset | ratio | middle half of ratios |");
    println!("|--:|--:|--:|--:|--:|");
    for length in LENGTHS {
        let [mut run, mut second] = [0, 1].map(|byte| vec![byte; length]);
        assert!(fill(&mut run, WORD), "{length} bytes");
        assert_eq!(run, filled(length), "{length} bytes");
        let [filling, memset] = race([
            many(|| _ = black_box(fill(black_box(&mut run), black_box(WORD)))),
            many(|| clear(black_box(&mut second))),
        ]);
        let ratio = filling.ratio(&memset);
        let (low, high) = filling.spread(&memset);
        println!(
            "| {length} | {:.1} | {:.1} | {ratio:.2} | {low:.2} to {high:.2} |",
            of_one(&filling),
            of_one(&memset),
        );
    }
}
