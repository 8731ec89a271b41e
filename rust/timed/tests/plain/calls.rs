//! Allocate and free: the same answers and the same bytes.

use std::fmt::Display;

use differential::hurt::{HEAD_HURTS, HURTS};
use differential::neighbours::{each_neighbour, each_small_size_code};
use differential::samples::dump;
use differential::{some_shape, Case, Image, Sequence, KERNEL_FORMS};
use reference::{Grant, Profile};

use crate::counts::{accepted, hurt, refusal, refusals, Counts};
use crate::draw::{some_call, Call};
use crate::lengths::each_length;
use crate::twin::Twin;

const SEED: u64 = 0x1f94_e6a8;

/// The refusals that allocate can give, by the rules.
const ALLOCATE: [(u8, u8); 12] = [
    (1, 0),
    (2, 0),
    (3, 0),
    (13, 0),
    (6, 0),
    (5, 0),
    (7, 29),
    (7, 20),
    (7, 21),
    (7, 24),
    (7, 25),
    (7, 26),
];

/// And free.
const FREE: [(u8, u8); 12] = [
    (1, 0),
    (2, 0),
    (3, 0),
    (13, 0),
    (4, 0),
    (7, 21),
    (8, 0),
    (7, 27),
    (7, 31),
    (7, 32),
    (7, 28),
    (9, 0),
];

/// The ends of what is lawful for buffer size, count and heap.
const EXTREMES: [(&str, usize); 5] = [
    ("size", 8),
    ("size", 4096),
    ("count", 1),
    ("count", 512),
    ("heap", 65_536),
];

/// The dump's buffer 1, the one that is allocated.
const BUFFER: u32 = 0x70a9_ae00;

/// All that both calls can answer.
fn answers() -> impl Iterator<Item = String> {
    let refused = refusals("allocate", &ALLOCATE).chain(refusals("free", &FREE));
    ["allocate", "free"]
        .into_iter()
        .map(accepted)
        .chain(refused)
}

fn allocate(grant: Grant) -> Call {
    Call {
        address: None,
        grant,
        uptime: 0x1122_3344,
        thread: 0x5566_7788,
    }
}

fn free(address: u32, grant: Grant) -> Call {
    Call {
        address: Some(address),
        grant,
        uptime: 0x99aa_bbcc,
        thread: 0xddee_ff00,
    }
}

/// The same call of thread 0.
fn nobody(call: Call) -> Call {
    Call { thread: 0, ..call }
}

/// Makes calls on an image, one after the other.
fn run_all(
    image: &Image,
    calls: impl IntoIterator<Item = Call>,
    story: &dyn Display,
    counts: &mut Counts,
    sequence: &mut Sequence,
) {
    let mut twin = Twin::new(image.clone(), story, sequence);
    for call in calls {
        twin.run(call, counts);
    }
}

/// A few calls on each image; now and then damage comes before one, most often to the
/// chain's first record or buffer.
#[test]
fn hurt_images() {
    let mut counts = Counts::default();
    for number in 0..60_000 {
        let (case, mut sequence) = Case::new(Profile::Kernel, SEED, number);
        let mut twin = Twin::new(case.image.clone(), &case, &mut sequence);
        let eagerness = sequence.pick(&[8, 16, 24]);
        for _ in 0..8 {
            match sequence.below(16) {
                0 => twin.hurt(sequence.pick(&HURTS), &mut counts, &mut sequence),
                1..=3 => twin.hurt(sequence.pick(&HEAD_HURTS), &mut counts, &mut sequence),
                _ => {}
            }
            let call = some_call(&twin.image, eagerness, &mut sequence);
            twin.run(call, &mut counts);
        }
    }
    let hurts = HURTS.iter().chain(&HEAD_HURTS).map(|(name, _)| hurt(name));
    counts.finish("calls, hurt images", SEED, answers().chain(hurts));
}

/// Long lists of calls on fresh heaps. The wish to allocate changes within a list, so
/// that a heap is filled and emptied.
#[test]
fn lists_on_fresh_heaps() {
    let mut counts = Counts::default();
    let mut sequence = Sequence::new(SEED);
    for number in 0..3_000 {
        let form = KERNEL_FORMS[number % KERNEL_FORMS.len()];
        let shape = some_shape(Profile::Kernel, &mut sequence);
        let story = format!("list {number}, seed {SEED:#x}: {form:?} {shape:x?}");
        let image = Image::laid_out(form, shape, [sequence.word(); 5]);
        let mut twin = Twin::new(image, &story, &mut sequence);
        note_extremes(&twin.image, &mut counts);
        let mut eagerness = 24;
        for _ in 0..sequence.below(100) + 2 * shape.count {
            if sequence.once_in(30) {
                eagerness = sequence.pick(&[6, 16, 28]);
            }
            let call = some_call(&twin.image, eagerness, &mut sequence);
            twin.run(call, &mut counts);
        }
    }
    let wanted = ["allocate", "free"].map(accepted).into_iter();
    let wanted = wanted.chain(refusals("allocate", &[(13, 0), (6, 0), (5, 0)]));
    let wanted = wanted.chain(refusals("free", &[(13, 0), (4, 0), (8, 0), (9, 0)]));
    let wanted = wanted.chain(EXTREMES.map(extreme));
    counts.finish("calls, lists on fresh heaps", SEED, wanted);
}

fn extreme((what, number): (&str, usize)) -> String {
    format!("{what} {number}")
}

fn note_extremes(image: &Image, counts: &mut Counts) {
    let shape = image.shape;
    let numbers = [
        ("size", shape.size),
        ("count", shape.count),
        ("heap", shape.heap_length()),
    ];
    for number in numbers.iter().filter(|number| EXTREMES.contains(number)) {
        counts.note(image.form, extreme(*number));
    }
}

/// The allocated buffer is freed by each grant that it may have, and every buffer is
/// then granted in turn.
#[test]
fn neighbours_of_the_dump() {
    let mut counts = Counts::default();
    let mut sequence = Sequence::new(SEED);
    let calls = [
        nobody(free(BUFFER, Grant::Sized(20))),
        nobody(allocate(Grant::Sized(9))),
        free(BUFFER, Grant::Sized(20)),
        free(BUFFER, Grant::Whole),
        free(BUFFER, Grant::Sized(24)),
        free(BUFFER + 40, Grant::Whole),
        allocate(Grant::Sized(9)),
        allocate(Grant::Whole),
        allocate(Grant::Sized(24)),
        allocate(Grant::Sized(1)),
    ];
    each_neighbour(&KERNEL_FORMS, |image| {
        run_all(image, calls, image, &mut counts, &mut sequence);
    });
    // These sizes are lawful, and a size code is 1 only when more than one byte is written.
    let never = [refusal("allocate", (6, 0)), refusal("free", (7, 31))];
    let wanted = answers().filter(|met| !never.contains(met));
    counts.finish("calls, neighbours of the dump", SEED, wanted);
}

/// Every grant asked for, and every grant given back for it.
#[test]
fn every_pair_of_grants() {
    let mut counts = Counts::default();
    let mut sequence = Sequence::new(SEED);
    let every_grant = || (0..=26).map(Grant::Sized).chain([Grant::Whole]);
    for granted in every_grant() {
        for freed in every_grant() {
            let calls = [
                free(BUFFER, Grant::Sized(20)),
                allocate(granted),
                free(BUFFER, freed),
            ];
            for image in KERNEL_FORMS.map(dump) {
                run_all(&image, calls, &image, &mut counts, &mut sequence);
            }
        }
    }
    let wanted = refusals("free", &[(8, 0), (9, 0)]);
    let wanted = wanted.chain([refusal("allocate", (6, 0))]);
    counts.finish("calls, every pair of grants", SEED, wanted);
}

#[test]
fn every_small_size_code() {
    let mut counts = Counts::default();
    let mut sequence = Sequence::new(SEED);
    each_small_size_code(&KERNEL_FORMS, |image| {
        let calls = [free(BUFFER, image.told_grant(1))];
        run_all(image, calls, image, &mut counts, &mut sequence);
    });
    let wanted = refusals("free", &[(7, 27), (7, 31), (7, 32), (7, 28)]);
    let wanted = wanted.chain([accepted("free")]);
    counts.finish("calls, every small size code", SEED, wanted);
}

#[test]
fn every_length() {
    let mut counts = Counts::default();
    let mut sequence = Sequence::new(SEED);
    let calls = [
        nobody(allocate(Grant::Sized(0))),
        nobody(free(BUFFER + 8, Grant::Whole)),
        allocate(Grant::Sized(0)),
        allocate(Grant::Whole),
        free(BUFFER + 8, Grant::Whole),
        free(BUFFER, Grant::Sized(20)),
    ];
    each_length(|image| run_all(image, calls, image, &mut counts, &mut sequence));
    let wanted = ["allocate", "free"].map(accepted).into_iter();
    let wanted = wanted.chain(refusals("allocate", &[(1, 0), (3, 0), (13, 0), (6, 0)]));
    let wanted = wanted.chain(refusals("free", &[(1, 0), (3, 0), (13, 0), (4, 0)]));
    counts.finish("calls, every length", SEED, wanted);
}
