//! Calls that an image accepts, and ones that it refuses for every reason there is.

use combgallop::Grant;
use differential::{move_areas, other_profile, word_bytes, Form, Image, Sequence};
use reference::Order;

use super::call::{of_library, Call, Numbers};

const REDZONE: u32 = 0xfeed_face;

/// An allocate in `eagerness` of 32 times; else a free, a store or a show.
pub fn some_call(image: &Image, eagerness: usize, sequence: &mut Sequence) -> Call {
    if sequence.below(32) < eagerness {
        return some_allocate(image, sequence);
    }
    match sequence.below(8) {
        0..=2 => some_free(image, sequence),
        3..=5 => some_store(image, sequence),
        _ => Call::Show {
            address: some_address(image, sequence),
        },
    }
}

fn some_allocate(image: &Image, sequence: &mut Sequence) -> Call {
    Call::Allocate {
        grant: some_grant(image, sequence),
        uptime: some_uptime(image, sequence),
        thread: some_thread(sequence),
    }
}

/// Whole, a lawful size, and now and then an unlawful one: 0, one too large, sizes that
/// would be lawful under the other profile or if fewer of their bits were read, and ones
/// whose coded size would pass 2^32.
fn some_grant(image: &Image, sequence: &mut Sequence) -> Grant {
    let size = image.shape.size as u32;
    let most = image.most_request() as u32;
    let lawful = sequence.between(1, most.max(1) as usize) as u32;
    match sequence.below(24) {
        0..=5 => Grant::Whole,
        6 | 7 => Grant::Sized(1),
        8 | 9 => Grant::Sized(most.saturating_sub(1)),
        10..=12 => Grant::Sized(most),
        13 => Grant::Sized(0),
        14 => Grant::Sized(most + 1),
        15 => Grant::Sized(sequence.pick(&[
            lawful + 0x1_0000,
            lawful + 0x8000_0000,
            u32::MAX,
            lawful.wrapping_sub(8),
            size,
            size + 8,
        ])),
        16 => Grant::Sized(sequence.word()),
        _ => Grant::Sized(lawful),
    }
}

fn some_uptime(image: &Image, sequence: &mut Sequence) -> u32 {
    let any = sequence.word();
    sequence.pick(&[image.times[0], image.times[1], 0, u32::MAX, any])
}

/// Any thread, now and then 0, which is nobody, or one that would be 0 if fewer of its
/// bits were read.
fn some_thread(sequence: &mut Sequence) -> u32 {
    let any = sequence.word();
    match sequence.below(8) {
        0 => 0,
        1 => sequence.pick(&[1, 0x100, 0x1_0000, 0x100_0000, 0x8000_0000, u32::MAX]),
        _ => any,
    }
}

fn some_free(image: &Image, sequence: &mut Sequence) -> Call {
    let buffer = sequence.below(image.shape.count);
    let granted = of_library(image.told_grant(buffer));
    let grant = match (sequence.below(16), granted) {
        (0, _) => some_grant(image, sequence),
        (1, Grant::Whole) => Grant::Sized(image.most_request() as u32),
        (1, Grant::Sized(_)) => Grant::Whole,
        (2, Grant::Sized(size)) => Grant::Sized(size.wrapping_sub(1)),
        (3, Grant::Sized(size)) => Grant::Sized(size.wrapping_add(1)),
        (4, Grant::Sized(size)) => Grant::Sized(size.wrapping_add(0x1_0000)),
        (5, Grant::Sized(size)) => Grant::Sized(size.wrapping_add(8)),
        _ => granted,
    };
    Call::Free {
        address: near_buffer(image, buffer, sequence),
        grant,
        uptime: some_uptime(image, sequence),
        thread: some_thread(sequence),
    }
}

fn some_address(image: &Image, sequence: &mut Sequence) -> u32 {
    let buffer = sequence.below(image.shape.count);
    near_buffer(image, buffer, sequence)
}

/// Mostly the buffer's address; else one inside it, past the last, before the first, a
/// record's, or near the ends of all addresses.
fn near_buffer(image: &Image, buffer: usize, sequence: &mut Sequence) -> u32 {
    let shape = image.shape;
    let address = shape.buffer_address(buffer);
    if !sequence.once_in(10) {
        return address;
    }
    let any = sequence.word();
    let inside = sequence.between(1, shape.chunk_size() - 1) as u32;
    let step = shape.chunk_size() as u32;
    sequence.pick(&[
        address + inside,
        address ^ 4,
        address.wrapping_add(0x8000_0000),
        shape.heap_base.wrapping_sub(step),
        shape.heap_base.wrapping_add(shape.heap_length() as u32),
        image.record_address(buffer),
        0,
        8,
        0u32.wrapping_sub(step),
        u32::MAX - 7,
        u32::MAX,
        any,
    ])
}

fn some_store(image: &Image, sequence: &mut Sequence) -> Call {
    let buffer = sequence.below(image.shape.count);
    let client = image.client(buffer).len();
    let (offset, length) = some_run(client, image.shape.chunk_size(), sequence);
    Call::Store {
        address: near_buffer(image, buffer, sequence),
        offset,
        bytes: some_bytes(image.order(), length, sequence),
    }
}

/// An offset and a length: within the client's bytes, to their exact end, one byte or
/// more past it, with nothing to store at the end and after it, and with an offset near
/// 2^32, or such that the end wraps around.
fn some_run(client: usize, chunk_size: usize, sequence: &mut Sequence) -> (u32, usize) {
    let offset = sequence.below(client + 1);
    let rest = client - offset;
    let few = sequence.below(40);
    let back = 0u32.wrapping_sub(few as u32);
    match sequence.below(16) {
        0 => (offset as u32, rest + 1),
        1 => (offset as u32, rest + few),
        2 => (client as u32, 0),
        3 => (client as u32 + 1, 0),
        4 => (sequence.between(client, chunk_size) as u32, few),
        5 => (u32::MAX - sequence.below(8) as u32, few),
        6 => (back, few),
        7 => (back.wrapping_add(offset as u32), few),
        8..=11 => (offset as u32, rest),
        _ => (offset as u32, sequence.below(rest + 1)),
    }
}

/// Any bytes, or bytes that mean something in a chunk.
fn some_bytes(order: Order, length: usize, sequence: &mut Sequence) -> Vec<u8> {
    let marks = [0xdead_beef, 0xbadd_cafe, REDZONE, 0xbbbb_bbbbu32];
    if sequence.once_in(2) {
        return sequence.bytes(length);
    }
    let mark = word_bytes(order, sequence.pick(&marks));
    mark.into_iter().cycle().take(length).collect()
}

pub fn some_order(sequence: &mut Sequence) -> Order {
    sequence.pick(&[Order::HighFirst, Order::LowFirst])
}

/// A lay out for areas of an image's lengths, in either order: lawful, with other bases,
/// with one number that is not, or under the other profile.
pub fn some_lay_out(image: &Image, sequence: &mut Sequence) -> Call {
    let mut profile = image.profile();
    if sequence.once_in(8) {
        profile = other_profile(profile);
    }
    let form = Form::laid_out(profile, some_order(sequence));
    let mut numbers = Numbers::new(form, move_areas(profile, image.shape, sequence));
    numbers.cache = sequence.word();
    if !sequence.once_in(2) {
        spoil(&mut numbers, sequence);
    }
    Call::LayOut(numbers)
}

/// Changes one number; mostly it is then unlawful, or the areas have another length.
fn spoil(numbers: &mut Numbers, sequence: &mut Sequence) {
    let any = sequence.word();
    let bit = 1 << sequence.below(32);
    let Numbers { size, count, .. } = *numbers;
    match sequence.below(4) {
        0 => numbers.heap_base = sequence.pick(&[0, 4, numbers.record_base, u32::MAX - 7, any]),
        1 => numbers.record_base = sequence.pick(&[0, 4, numbers.heap_base, u32::MAX - 7, any]),
        2 => numbers.size = sequence.pick(&[0, size ^ bit, size + 8, size - 8, size + 4, any]),
        _ => numbers.count = sequence.pick(&[0, count ^ bit, count + 1, count - 1, any]),
    }
}

/// What an area may hold before it is laid out: any few bytes, repeated, for speed.
pub fn any_bytes(length: usize, sequence: &mut Sequence) -> Vec<u8> {
    let few = sequence.bytes(31);
    let mut bytes = few.repeat(length / few.len() + 1);
    bytes.truncate(length);
    bytes
}
