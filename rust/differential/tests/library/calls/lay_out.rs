//! Lay out, with arguments at and past every limit and areas of any length.

use differential::{
    other_profile, record_size, some_shape, Form, Image, Sequence, Shape, LONG_FORMS, PROFILES,
};
use reference::SHEET_LENGTH;

use super::answers;
use super::call::{Call, Numbers};
use super::draw::{any_bytes, some_order};
use super::twin::Twin;
use crate::counts::{Counts, Met, EXTREMES};

const CASES: u64 = 60_000;
const SEED: u64 = 0x4e02_9d5f;

/// The longest areas that are lent: more would only take time.
const MOST_LENT: u64 = 100_000;

/// The arguments of a lay out and the lengths of its areas.
#[derive(Debug)]
struct Draft {
    numbers: Numbers,
    sheet_length: usize,
    heap_length: usize,
    record_length: usize,
}

impl Draft {
    fn lawful(form: Form, shape: Shape) -> Draft {
        Draft {
            numbers: Numbers::new(form, shape),
            sheet_length: SHEET_LENGTH,
            heap_length: shape.heap_length(),
            record_length: shape.count * record_size(form.profile()),
        }
    }

    /// Gives the areas the lengths that size and count need, so that these alone are
    /// unlawful; lengths that are too long to lend, as 32 bits hold them.
    fn follow(&mut self, size: u32, count: u32) {
        let need = |each: u64| {
            let exact = u64::from(count) * each;
            let lent = if exact > MOST_LENT {
                u64::from(exact as u32).min(MOST_LENT)
            } else {
                exact
            };
            lent as usize
        };
        self.heap_length = need(u64::from(size) + 16);
        self.record_length = need(record_size(self.numbers.profile) as u64);
        self.numbers.size = size;
        self.numbers.count = count;
    }
}

/// One way to make a draft unlawful, or to bring it to the end of what is lawful.
type Change = (&'static str, fn(&mut Draft, &mut Sequence));

const CHANGES: [Change; 12] = [
    ("sheet length", change_sheet_length),
    ("heap length", change_heap_length),
    ("record length", change_record_length),
    (
        "record length of the other profile",
        take_other_record_length,
    ),
    ("size", change_size),
    ("count", change_count),
    ("heap area at its limit", reach_heap_limit),
    ("size and count together", change_both),
    ("base 0 or unaligned", change_base),
    ("base near 2^32", raise_base),
    ("areas that share addresses or touch", share_addresses),
    ("any numbers", take_any),
];

/// The short form's length is refused here too.
fn change_sheet_length(draft: &mut Draft, sequence: &mut Sequence) {
    draft.sheet_length = sequence.pick(&[0, 1, 24, 47, 48, 48, 49, 50, 51, 53, 104, 52 + 256]);
}

fn other_length(length: usize, sequence: &mut Sequence) -> usize {
    let any = sequence.below(2 * length + 1);
    sequence.pick(&[0, any, length - 1, length + 1, length + 8, 2 * length])
}

fn change_heap_length(draft: &mut Draft, sequence: &mut Sequence) {
    draft.heap_length = other_length(draft.heap_length.max(1), sequence);
}

fn change_record_length(draft: &mut Draft, sequence: &mut Sequence) {
    draft.record_length = other_length(draft.record_length.max(1), sequence);
}

/// As many records of the other profile.
fn take_other_record_length(draft: &mut Draft, _: &mut Sequence) {
    let profile = draft.numbers.profile;
    let count = draft.record_length / record_size(profile);
    draft.record_length = count * record_size(other_profile(profile));
}

/// Sizes at the limits and past them, ones that are lawful in their low 16 bits, and
/// ones whose chunk size passes 2^32.
fn change_size(draft: &mut Draft, sequence: &mut Sequence) {
    let any = sequence.word();
    let size = sequence.pick(&[
        0,
        1,
        4,
        7,
        8,
        9,
        12,
        16,
        4088,
        4095,
        4096,
        4097,
        4104,
        8192,
        65_520,
        65_528,
        65_536,
        65_544,
        0x8000_0008,
        0xffff_fff0,
        0xffff_fff8,
        u32::MAX,
        any,
    ]);
    draft.follow(size, draft.numbers.count);
}

fn change_count(draft: &mut Draft, sequence: &mut Sequence) {
    let any = sequence.word();
    let count = sequence.pick(&[
        0,
        1,
        511,
        512,
        513,
        514,
        1024,
        65_535,
        65_536,
        65_537,
        0x8000_0001,
        u32::MAX,
        any,
    ]);
    draft.follow(draft.numbers.size, count);
}

/// Heap areas of 65,536 bytes, the most there may be, and just above.
fn reach_heap_limit(draft: &mut Draft, sequence: &mut Sequence) {
    let (size, count) = sequence.pick(&[
        (112, 512),
        (240, 256),
        (4080, 16),
        (120, 481),
        (120, 482),
        (256, 241),
        (4088, 16),
        (4096, 16),
        (4096, 512),
    ]);
    draft.follow(size, count);
}

fn change_both(draft: &mut Draft, sequence: &mut Sequence) {
    change_count(draft, sequence);
    change_size(draft, sequence);
}

/// One of the two bases.
fn some_base<'a>(draft: &'a mut Draft, sequence: &mut Sequence) -> &'a mut u32 {
    if sequence.once_in(2) {
        &mut draft.numbers.heap_base
    } else {
        &mut draft.numbers.record_base
    }
}

fn change_base(draft: &mut Draft, sequence: &mut Sequence) {
    let base = some_base(draft, sequence);
    let unaligned = *base + sequence.between(1, 7) as u32;
    *base = sequence.pick(&[0, 1, 4, 8, unaligned, unaligned]);
}

/// The length of an area, up to the next base behind it: an odd count of userland records
/// ends between two.
fn aligned(length: usize) -> u32 {
    length.next_multiple_of(8) as u32
}

/// The highest base there is for an area, and the next higher ones.
fn raise_base(draft: &mut Draft, sequence: &mut Sequence) {
    let lengths = [draft.heap_length, draft.record_length];
    let base = some_base(draft, sequence);
    let highest = aligned(sequence.pick(&lengths)).wrapping_neg();
    *base = sequence.pick(&[highest, highest, highest.wrapping_add(8), 0xffff_fff8]);
}

/// One area takes the other's first or last bytes, starts with it, ends with it, or
/// only touches it, which is lawful.
fn share_addresses(draft: &mut Draft, sequence: &mut Sequence) {
    let Numbers {
        heap_base,
        record_base,
        ..
    } = draft.numbers;
    let heap_length = aligned(draft.heap_length);
    let record_length = aligned(draft.record_length);
    if sequence.once_in(2) {
        draft.numbers.heap_base = sequence.pick(&[
            record_base,
            record_base.wrapping_add(record_length),
            record_base.wrapping_add(record_length).wrapping_sub(8),
            record_base.wrapping_sub(heap_length),
            record_base.wrapping_sub(heap_length).wrapping_add(8),
        ]);
    } else {
        draft.numbers.record_base = sequence.pick(&[
            heap_base,
            heap_base.wrapping_add(heap_length),
            heap_base.wrapping_add(heap_length).wrapping_sub(8),
            heap_base.wrapping_sub(record_length),
            heap_base.wrapping_sub(record_length).wrapping_add(8),
        ]);
    }
}

fn take_any(draft: &mut Draft, sequence: &mut Sequence) {
    draft.numbers = Numbers {
        profile: draft.numbers.profile,
        order: draft.numbers.order,
        cache: sequence.word(),
        heap_base: sequence.word(),
        record_base: sequence.word(),
        size: sequence.word(),
        count: sequence.word(),
    };
}

/// Changes a lawful draft in no way, one way or two.
fn some_draft(counts: &mut Counts, sequence: &mut Sequence) -> Draft {
    let profile = sequence.pick(&PROFILES);
    let form = Form::laid_out(profile, some_order(sequence));
    let mut draft = Draft::lawful(form, some_shape(profile, sequence));
    for _ in 0..sequence.pick(&[0, 1, 1, 1, 2]) {
        let (name, way) = sequence.pick(&CHANGES);
        way(&mut draft, sequence);
        counts.note(form, Met::Drawn(name));
    }
    draft
}

/// Areas of a draft's lengths, full of anything.
fn areas(draft: &Draft, sequence: &mut Sequence) -> Image {
    Image {
        form: draft.numbers.form(),
        shape: draft.numbers.into(),
        times: [0; 5],
        sheet: any_bytes(draft.sheet_length, sequence),
        heap: any_bytes(draft.heap_length, sequence),
        records: any_bytes(draft.record_length, sequence),
        log: Vec::new(),
        magazines: Vec::new(),
    }
}

#[test]
fn lay_outs_of_every_kind() {
    let mut counts = Counts::default();
    for number in 0..CASES {
        let mut sequence = Sequence::new(Sequence::new(SEED).number() ^ number);
        let draft = some_draft(&mut counts, &mut sequence);
        let story = format!("seed {SEED:#x} case {number}: {draft:x?}");
        let image = areas(&draft, &mut sequence);
        let mut twin = Twin::new(image, &story, &mut sequence);
        let call = Call::LayOut(draft.numbers);
        if twin.run(&call, &mut counts, &mut sequence).is_ok() {
            counts.note_extremes(&twin.image);
        }
    }
    let changes: Vec<Met> = CHANGES.iter().map(|&(name, _)| Met::Drawn(name)).collect();
    let wanted = [&answers("lay out")[..], &EXTREMES, &changes].concat();
    counts.finish_in(&LONG_FORMS, "calls, lay outs", SEED, &wanted);
}
