//! Long lists of calls on fresh heaps, without damage from outside, against the ledger.

use std::fmt::{Display, Formatter, Result as Written};

use differential::{record_size, some_shape, Form, Image, Sequence, Shape, LONG_FORMS, PROFILES};
use reference::{Order, Profile, SHEET_LENGTH};

use super::call::{Call, Numbers};
use super::draw::{any_bytes, some_call, some_lay_out, some_order};
use super::ledger::Ledger;
use super::twin::Twin;
use crate::counts::{Counts, Met, EXTREMES};

const LISTS: u64 = 5_000;
const SEED: u64 = 0x6b19_f4d2;

/// The answers that a lay out in a list can get; 1 where the sheet is short.
const LAY_OUTS: [Met; 4] = [
    Met::Accepted("lay out"),
    Met::Refused("lay out", 1, 0),
    Met::Refused("lay out", 2, 0),
    Met::Refused("lay out", 3, 0),
];

/// The answers that the other calls of a list without damage can get.
const WANTED: [Met; 23] = [
    Met::Accepted("allocate"),
    Met::Refused("allocate", 13, 0),
    Met::Nobody("allocate", 0, 0),
    Met::Nobody("allocate", 6, 0),
    Met::Nobody("allocate", 5, 0),
    Met::Refused("allocate", 6, 0),
    Met::Refused("allocate", 5, 0),
    Met::Accepted("free"),
    Met::Refused("free", 13, 0),
    Met::Nobody("free", 0, 0),
    Met::Nobody("free", 4, 0),
    Met::Nobody("free", 8, 0),
    Met::Nobody("free", 9, 0),
    Met::Refused("free", 4, 0),
    Met::Refused("free", 8, 0),
    Met::Refused("free", 9, 0),
    Met::Accepted("store"),
    Met::Refused("store", 4, 0),
    Met::Refused("store", 8, 0),
    Met::Refused("store", 10, 0),
    Met::Accepted("show"),
    Met::Refused("show", 4, 0),
    Met::Refused("show", 8, 0),
];

/// Lists that say something of their own.
const LENGTHS: [Met; 3] = [
    Met::Drawn("empty list"),
    Met::Drawn("list of 100 calls and more"),
    Met::Drawn("list that ends with every buffer out"),
];

/// One list of a seed, by its number.
struct List {
    number: u64,
    numbers: Numbers,
}

impl Display for List {
    fn fmt(&self, out: &mut Formatter) -> Written {
        let List { number, numbers } = self;
        write!(out, "seed {SEED:#x} list {number}: {numbers:x?}")
    }
}

/// Areas that hold anything, before they are laid out.
fn any_areas(numbers: Numbers, sequence: &mut Sequence) -> Image {
    let shape = Shape::from(numbers);
    Image {
        form: numbers.form(),
        shape,
        times: [sequence.word(); 5],
        sheet: any_bytes(SHEET_LENGTH, sequence),
        heap: any_bytes(shape.heap_length(), sequence),
        records: any_bytes(shape.count * record_size(numbers.profile), sequence),
        log: Vec::new(),
        magazines: Vec::new(),
    }
}

/// None, or enough that every buffer can be out.
fn some_length(shape: Shape, sequence: &mut Sequence) -> usize {
    match sequence.below(20) {
        0 => 0,
        1 => sequence.below(4),
        _ => sequence.below(200) + sequence.below(3 * shape.count),
    }
}

/// Runs one list. The wish to allocate changes within it, so that a heap is filled and
/// emptied; now and then it is laid out again. Some high-first heaps are used through the
/// short form of their sheet.
fn run(profile: Profile, number: u64, counts: &mut Counts) {
    let mut sequence = Sequence::new(Sequence::new(SEED).number() ^ number);
    let shape = some_shape(profile, &mut sequence);
    let form = Form::laid_out(profile, some_order(&mut sequence));
    let numbers = Numbers::new(form, shape);
    let list = List { number, numbers };
    let mut twin = Twin::new(any_areas(numbers, &mut sequence), &list, &mut sequence);
    let answer = twin.run(&Call::LayOut(numbers), counts, &mut sequence);
    assert_eq!(answer, Ok(0), "a lawful lay out: {}", twin.story);
    let mut ledger = Ledger::open(numbers);
    if numbers.order == Order::HighFirst && sequence.once_in(2) {
        twin.shorten(&mut sequence);
    }

    let length = some_length(shape, &mut sequence);
    let mut eagerness = 12;
    for _ in 0..length {
        if sequence.once_in(30) {
            eagerness = sequence.pick(&[4, 12, 26]);
        }
        let call = if sequence.once_in(150) {
            some_lay_out(&twin.image, &mut sequence)
        } else {
            some_call(&twin.image, eagerness, &mut sequence)
        };
        let answer = twin.run(&call, counts, &mut sequence);
        ledger.enter(&call, answer, &twin.story);
        if sequence.once_in(8 + shape.count) {
            ledger.check(&twin);
        }
    }
    ledger.check(&twin);
    note_list(&twin, &ledger, length, counts);
}

fn note_list(twin: &Twin, ledger: &Ledger, length: usize, counts: &mut Counts) {
    let form = twin.image.form;
    counts.note_extremes(&twin.image);
    let are_met = [length == 0, length >= 100, ledger.is_full()];
    for (met, is_met) in LENGTHS.into_iter().zip(are_met) {
        if is_met {
            counts.note(form, met);
        }
    }
}

#[test]
fn every_list_is_as_its_ledger() {
    let mut counts = Counts::default();
    for profile in PROFILES {
        for number in 0..LISTS {
            run(profile, number, &mut counts);
        }
    }
    let wanted = [&WANTED[..], &LENGTHS, &EXTREMES].concat();
    let title = "calls, lists on fresh heaps";
    counts.finish(title, SEED, &wanted);
    counts.want(&LONG_FORMS, title, &LAY_OUTS);
}
