//! Calls on the dump: on every neighbour of it, and with every small number.

use combgallop::{Grant, Refusal};
use differential::neighbours::each_small_size_code;
use differential::samples::{dump, dump_request};
use differential::{Form, Image, Sequence, FORMS};

use super::call::{of_library, of_reference, Call};
use super::twin::Twin;
use super::{answers, header_answers};
use crate::counts::{Counts, Met};

const SEED: u64 = 0x95c1_7b3e;

const SIZE: u32 = 24;

/// Buffer 1, the one that is allocated.
const BUFFER: u32 = 0x70a9_ae00;
const STEP: u32 = 40;

/// The dump with its allocated buffer granted in some way.
fn dump_granted(form: Form, grant: Grant) -> Image {
    let mut image = dump(form);
    image.put_grant(1, of_reference(grant));
    image
}

/// The grant whose guard stands on R0.
fn largest(form: Form) -> Grant {
    Grant::Sized(dump(form).most_request() as u32)
}

/// Whole, and every size there is and a few that there are not.
fn every_grant() -> Vec<Grant> {
    let sizes = (0..SIZE + 3).map(Grant::Sized);
    sizes.chain([Grant::Whole]).collect()
}

fn allocate(grant: Grant) -> Call {
    Call::Allocate {
        grant,
        uptime: 0x1122_3344,
        thread: 0x5566_7788,
    }
}

fn free(grant: Grant) -> Call {
    Call::Free {
        address: BUFFER,
        grant,
        uptime: 0x99aa_bbcc,
        thread: 0xddee_ff00,
    }
}

/// The same call of another thread.
fn by(new: u32, mut call: Call) -> Call {
    match &mut call {
        Call::Allocate { thread, .. } | Call::Free { thread, .. } => *thread = new,
        _ => panic!("{call:?} has no thread"),
    }
    call
}

fn store(offset: u32, length: usize) -> Call {
    Call::Store {
        address: BUFFER,
        offset,
        bytes: (0x30..).take(length).collect(),
    }
}

fn show(address: u32) -> Call {
    Call::Show { address }
}

/// A few calls, one after the other: first those of thread 0, which change nothing. The
/// allocates take every buffer in turn, the freed one first, and then there is none.
fn some_of_each(grant: Grant, largest: Grant) -> [Call; 11] {
    [
        by(0, free(grant)),
        by(0, allocate(largest)),
        show(BUFFER - STEP),
        show(BUFFER),
        show(BUFFER + STEP),
        store(2, 3),
        free(grant),
        allocate(Grant::Sized(9)),
        allocate(Grant::Whole),
        allocate(largest),
        allocate(Grant::Sized(1)),
    ]
}

fn run_all(
    image: &Image,
    calls: &[Call],
    origin: &str,
    counts: &mut Counts,
    sequence: &mut Sequence,
) {
    let mut twin = Twin::new(image.clone(), &origin, sequence);
    for call in calls {
        // Any answer will do that both give.
        let _ = twin.run(call, counts, sequence);
    }
}

/// What one byte of the dump doesn't bring about: the two patterns are far apart, these
/// arguments are lawful, and the code of size 0 differs from that of another in two bytes.
const NOT_NEAR: [Met; 8] = [
    Met::Refused("allocate", 6, 0),
    Met::Refused("free", 8, 0),
    Met::Refused("free", 9, 0),
    Met::Refused("store", 8, 0),
    Met::Refused("store", 10, 0),
    Met::Refused("free", 7, 31),
    Met::Refused("store", 7, 31),
    Met::Refused("show", 7, 31),
];

/// Each byte of the sheet, the heap and the records, changed to each other value.
#[test]
fn calls_on_neighbours_of_the_dump() {
    let mut sequence = Sequence::new(SEED);
    let mut counts = Counts::default();
    for form in FORMS {
        let granted = Grant::Sized(dump_request(form));
        for grant in [granted, Grant::Whole, largest(form)] {
            run_on_neighbours(form, grant, &mut counts, &mut sequence);
        }
    }
    let all = ["allocate", "free", "store", "show"].map(answers).concat();
    let wanted: Vec<Met> = all
        .into_iter()
        .filter(|met| !NOT_NEAR.contains(met))
        .collect();
    let title = "calls, neighbours of the dump";
    counts.finish_with(title, SEED, &wanted, &header_answers());
}

fn run_on_neighbours(form: Form, grant: Grant, counts: &mut Counts, sequence: &mut Sequence) {
    let mut image = dump_granted(form, grant);
    let calls = some_of_each(grant, largest(form));
    let lengths = [image.sheet.len(), image.heap.len(), image.records.len()];
    for (area, length) in lengths.into_iter().enumerate() {
        for at in 0..length {
            let stood = *image.byte_mut(area, at);
            for value in 0..=255 {
                *image.byte_mut(area, at) = value;
                let origin = format!("{form:?} dump, {grant:?}, area {area}, {value:#x} at {at}");
                run_all(&image, &calls, &origin, counts, sequence);
            }
            *image.byte_mut(area, at) = stood;
        }
    }
}

/// Every grant asked for, and every grant given back for it.
#[test]
fn every_pair_of_grants() {
    let mut sequence = Sequence::new(SEED);
    let mut counts = Counts::default();
    for image in FORMS.map(dump) {
        for granted in every_grant() {
            for freed in every_grant() {
                let as_granted = Grant::Sized(dump_request(image.form));
                let calls = [
                    free(as_granted),
                    allocate(granted),
                    show(BUFFER),
                    free(freed),
                ];
                let origin = format!("{:?} dump, {granted:?}, then {freed:?}", image.form);
                run_all(&image, &calls, &origin, &mut counts, &mut sequence);
            }
        }
    }
    let wanted = [
        Met::Refused("allocate", 6, 0),
        Met::Refused("free", 8, 0),
        Met::Refused("free", 9, 0),
    ];
    counts.finish("calls, every pair of grants", SEED, &wanted);
}

/// Threads with one bit each, next to them and to 0, and 0 itself: only that is refused.
#[test]
fn every_thread_of_one_bit() {
    let mut sequence = Sequence::new(SEED);
    let mut counts = Counts::default();
    let bits = (0..32).map(|bit| 1u32 << bit);
    let threads: Vec<u32> = bits.flat_map(|bit| [bit, bit - 1, !bit]).collect();
    for image in FORMS.map(dump) {
        let grant = Grant::Sized(dump_request(image.form));
        for &thread in &threads {
            let mut twin = Twin::new(image.clone(), &"the dump", &mut sequence);
            for call in [by(thread, free(grant)), by(thread, allocate(Grant::Whole))] {
                let outcome = twin.run(&call, &mut counts, &mut sequence);
                let expected = (thread == 0).then_some(Refusal::NoThread);
                assert_eq!(outcome.err(), expected, "thread {thread:#x}");
            }
        }
    }
    let wanted = ["allocate", "free"].map(|call| {
        let refused = Met::Refused(call, 13, 0);
        [Met::Accepted(call), refused, Met::Nobody(call, 0, 0)]
    });
    counts.finish("calls, every thread of one bit", SEED, &wanted.concat());
}

/// For every grant, every store of few bytes at every small offset and near 2^32.
#[test]
fn every_small_store() {
    let mut sequence = Sequence::new(SEED);
    let mut counts = Counts::default();
    for form in FORMS {
        let sizes = (1..=dump(form).most_request() as u32).map(Grant::Sized);
        for grant in sizes.chain([Grant::Whole]) {
            run_small_stores(form, grant, &mut counts, &mut sequence);
        }
    }
    let wanted = [Met::Accepted("store"), Met::Refused("store", 10, 0)];
    counts.finish("calls, every small store", SEED, &wanted);
}

fn run_small_stores(form: Form, grant: Grant, counts: &mut Counts, sequence: &mut Sequence) {
    let image = dump_granted(form, grant);
    for offset in (0..STEP + 2).chain(u32::MAX - STEP..=u32::MAX) {
        let calls: Vec<Call> = (0..=STEP as usize + 1)
            .map(|length| store(offset, length))
            .collect();
        let origin = format!("{form:?} dump, {grant:?}");
        run_all(&image, &calls, &origin, counts, sequence);
    }
}

#[test]
fn calls_on_every_small_size_code() {
    let mut sequence = Sequence::new(SEED);
    let mut counts = Counts::default();
    each_small_size_code(&FORMS, |image| {
        let [r0, r1] = [image.r0(1), image.r1(1)].map(|at| image.heap_word(at));
        let granted = of_library(image.told_grant(1));
        let calls = [show(BUFFER), store(0, 1), free(granted)];
        let fill = image.heap[image.buffer(1)];
        let origin = format!("dump, R0 {r0:#x}, R1 {r1:#x}, {fill:#x} before them");
        run_all(image, &calls, &origin, &mut counts, &mut sequence);
    });
    let calls = ["show", "store", "free"];
    let refused = [27, 31, 32, 28].map(|detail| calls.map(|call| Met::Refused(call, 7, detail)));
    let wanted = [refused.concat(), calls.map(Met::Accepted).to_vec()].concat();
    let title = "calls, every small size code";
    counts.finish_with(title, SEED, &wanted, &header_answers());
}
