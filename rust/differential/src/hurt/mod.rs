//! The ways an image is hurt. Some hurts must not matter, and some do nothing to an
//! image that an earlier hurt has cut.

mod areas;
mod bytes;
mod chain;
mod chunk;
mod head;
mod header;
mod pairing;
mod sheet;
mod times;

use crate::{Image, Sequence, Shape};

/// One way, with its name.
pub type Hurt = (&'static str, fn(&mut Image, &mut Sequence));

/// Every way there is.
pub const HURTS: [Hurt; 56] = [
    ("sheet: tag", sheet::change_tag),
    ("sheet: length of a field", sheet::change_field_length),
    ("sheet: fields out of order", sheet::exchange_fields),
    ("sheet: buffer size", sheet::break_size),
    ("sheet: chunk size", sheet::break_chunk_size),
    ("sheet: count", sheet::break_count),
    ("sheet: heap too large", sheet::break_heap_limit),
    ("sheet: flags", sheet::break_flags),
    ("sheet: base", sheet::break_base),
    ("sheet: shared addresses", sheet::share_addresses),
    ("sheet: any cache address", sheet::change_cache),
    ("sheet: field of the order", sheet::change_last_field),
    ("sheet: no order", sheet::break_order),
    ("sheet: other order", sheet::exchange_order),
    ("sheet: 47 to 53 bytes", sheet::change_sheet_length),
    ("sheet: other form", sheet::change_form),
    ("area length", areas::change_length),
    ("log length", areas::change_log_length),
    ("pairing: buffer named twice", pairing::name_twice),
    ("pairing: no buffer named", pairing::name_nothing),
    ("pairing: names exchanged", pairing::exchange_names),
    ("chain: cut", chain::cut),
    ("chain: next no record", chain::leave_records),
    ("chain: next unaligned", chain::miss_start),
    ("chain: self-loop", chain::loop_to_self),
    ("chain: loop back", chain::loop_back),
    ("chain: head 0", chain::empty),
    ("chain: other head", chain::change_head),
    ("chain: record left out", chain::leave_out),
    ("chain: allocated record", chain::add_allocated),
    ("tag: other T0", chunk::change_t0),
    (
        "tag: other record with its pattern",
        chunk::tag_with_other_record,
    ),
    ("tag: neither pattern", chunk::break_tag),
    ("tag: other pattern", chunk::exchange_pattern),
    ("tag: words exchanged", chunk::exchange_tag_words),
    ("free: fill", chunk::change_fill),
    ("free: redzone", chunk::change_free_redzone),
    ("allocated: redzone", chunk::change_granted_redzone),
    ("allocated: full size, any R0", chunk::grant_full_size),
    ("allocated: size code", chunk::change_size_code),
    ("allocated: size code, remainder", chunk::change_remainder),
    ("allocated: size code of size 0", chunk::code_size_zero),
    ("allocated: size code above", chunk::code_size_above),
    ("allocated: guard byte", chunk::change_guard),
    ("allocated: client stores the free fill", chunk::store_fill),
    ("allocated: bytes not judged", chunk::change_unjudged),
    ("header: first word", header::change_first_word),
    ("header: second word", header::change_second_word),
    ("header: of another size", header::change_size),
    ("header: words exchanged", header::exchange_words),
    ("header: coded size below 9", header::shrink),
    ("stamp: high half", times::widen_stamp),
    ("bytes flipped", bytes::flip),
    ("bytes of meaning misplaced", bytes::misplace_words),
    ("words turned", bytes::turn_words),
    ("random or cut", bytes::replace),
];

/// The ways that an allocate meets at the chain's first record and its buffer, some of
/// them two at once. They do nothing where no record or no buffer is first.
pub const HEAD_HURTS: [Hurt; 11] = [
    ("head: no record", head::leave_records),
    ("head: names no buffer", head::name_nothing),
    ("head: names another buffer", head::name_other),
    ("head: other record with its pattern", head::tag_with_other),
    ("head: neither pattern", head::break_tag),
    ("head: allocated pattern", head::mark_allocated),
    (
        "head: allocated pattern of another record",
        head::mark_others_allocated,
    ),
    ("head: fill", head::change_fill),
    ("head: redzone", head::change_redzone),
    ("head: fill and redzone", head::change_fill_and_redzone),
    (
        "head: allocated pattern and fill",
        head::mark_allocated_and_change_fill,
    ),
];

/// An address where no record starts: near the records, in one past its start, a
/// buffer's, or any word.
fn no_record(image: &Image, sequence: &mut Sequence) -> u32 {
    let (shape, step) = (image.shape, image.record_size() as u32);
    let any = sequence.word();
    let inside = sequence.between(1, image.record_size() - 1) as u32;
    let record = image.record_address(sequence.below(shape.count));
    sequence.pick(&[
        any,
        1,
        u32::MAX,
        record + inside,
        shape.heap_base,
        shape.record_base.wrapping_sub(step),
        shape.record_base.wrapping_add(image.record_length() as u32),
    ])
}

/// An address where no buffer starts: near the heap, in a chunk past its start, a
/// record's, or any word.
pub(crate) fn no_buffer(shape: Shape, sequence: &mut Sequence) -> u32 {
    let step = shape.chunk_size() as u32;
    let any = sequence.word();
    let inside = sequence.between(1, shape.chunk_size() - 1) as u32;
    sequence.pick(&[
        0,
        u32::MAX,
        any,
        shape.heap_base + inside,
        shape.heap_base.wrapping_sub(step),
        shape.heap_base.wrapping_add(shape.heap_length() as u32),
        shape.record_base,
    ])
}

/// Hurts an image in no way, one way or a few, and answers their names.
pub fn hurt(image: &mut Image, sequence: &mut Sequence) -> Vec<&'static str> {
    let times = sequence.pick(&[0, 1, 1, 1, 1, 2, 2, 3]);
    let mut names = Vec::new();
    for _ in 0..times {
        let (name, way) = sequence.pick(&HURTS);
        way(image, sequence);
        names.push(name);
    }
    names
}
