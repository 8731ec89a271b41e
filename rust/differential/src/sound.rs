//! Sound images: laid out, used by lists of calls, and re-paired.

use reference::{allocate, free, show, store, Grant, Profile};

use crate::image::{FREE_FILL, NEXT};
use crate::profile::record_size;
use crate::words::{put_word, word, word_bytes};
use crate::{Form, Image, Sequence, Shape};

/// The sizes and counts at the ends of what is lawful. 128 times 512 and 4,096 times
/// 16 are the largest heap area exactly.
const EXTREMES: [(usize, usize); 7] = [
    (8, 1),
    (8, 512),
    (112, 512),
    (120, 481),
    (4080, 16),
    (4096, 1),
    (4096, 15),
];

const ADDRESSES: u64 = 1 << 32;

/// An image without a fault, with a log.
pub fn sound_image(profile: Profile, sequence: &mut Sequence) -> Image {
    let form = some_form(sequence).under(profile);
    let shape = some_shape(profile, sequence);
    let times = some_times(sequence);
    let mut image = Image::laid_out(form, shape, times);
    run_calls(&mut image, sequence);
    pair_anew(&mut image, sequence);
    if sequence.once_in(2) {
        fill_unread_words(&mut image, sequence);
    }
    image.log = some_log(&image, sequence);
    image
}

/// Either order as often as the other, and either form of the one that has two.
fn some_form(sequence: &mut Sequence) -> Form {
    sequence.pick(&[Form::Low, Form::Low, Form::High, Form::Short])
}

/// The numbers of a lawful lay out under a profile.
pub fn some_shape(profile: Profile, sequence: &mut Sequence) -> Shape {
    let (size, count) = some_sizes(sequence);
    let shape = Shape {
        cache: sequence.word(),
        heap_base: 0,
        record_base: 0,
        size,
        count,
    };
    move_areas(profile, shape, sequence)
}

/// The same sizes with other lawful bases.
pub fn move_areas(profile: Profile, mut shape: Shape, sequence: &mut Sequence) -> Shape {
    let heap_length = shape.heap_length() as u64;
    let record_length = (shape.count * record_size(profile)) as u64;
    loop {
        let heap_base = some_base(heap_length, sequence);
        let record_base = match sequence.below(4) {
            0 => heap_base + heap_length,
            1 => heap_base.saturating_sub(record_length) / 8 * 8,
            _ => some_base(record_length, sequence),
        };
        let heap_end = heap_base + heap_length;
        let record_end = record_base + record_length;
        let is_apart = heap_end <= record_base || record_end <= heap_base;
        if is_apart && record_base != 0 && record_end <= ADDRESSES {
            shape.heap_base = heap_base as u32;
            shape.record_base = record_base as u32;
            return shape;
        }
    }
}

/// A buffer size and a count: mostly small, for speed; now and then any, or an extreme.
fn some_sizes(sequence: &mut Sequence) -> (usize, usize) {
    match sequence.below(32) {
        0 => sequence.pick(&EXTREMES),
        1 => {
            let size = 8 * sequence.between(1, 512);
            let most = (65_536 / (size + 16)).min(512);
            (size, sequence.between(1, most))
        }
        _ => (8 * sequence.between(1, 6), sequence.between(1, 12)),
    }
}

/// A base for so many bytes: the lowest, the highest or any.
fn some_base(length: u64, sequence: &mut Sequence) -> u64 {
    let highest = (ADDRESSES - length) / 8 * 8;
    match sequence.below(4) {
        0 => 8,
        1 => highest,
        _ => (sequence.number() % highest / 8 * 8).max(8),
    }
}

/// Uptimes close together, some of them across the wrap-around, and one far away.
fn some_times(sequence: &mut Sequence) -> [u32; 5] {
    let any = sequence.word();
    let middle = sequence.pick(&[0, 3, 0x8000_0000, u32::MAX - 2, any]);
    let mut times = [middle; 5];
    for time in &mut times[..3] {
        *time = middle
            .wrapping_add(sequence.below(9) as u32)
            .wrapping_sub(4);
    }
    times[4] = any;
    times
}

/// Lets allocate, free and store work on the image; a refused call is no matter.
fn run_calls(image: &mut Image, sequence: &mut Sequence) {
    let mut granted = Vec::new();
    for _ in 0..sequence.below(3 * image.shape.count + 1) {
        match sequence.below(5) {
            0..=2 => grant(image, &mut granted, sequence),
            3 if !granted.is_empty() => take_back(image, &mut granted, sequence),
            _ if !granted.is_empty() => {
                let (address, _) = sequence.pick(&granted);
                store_some(image, address, sequence);
            }
            _ => {}
        }
    }
}

fn grant(image: &mut Image, granted: &mut Vec<(u32, Grant)>, sequence: &mut Sequence) {
    let most = image.most_request().max(1);
    let grant = match sequence.below(6) {
        0 | 1 => Grant::Whole,
        2 => Grant::Sized(1),
        3 => Grant::Sized(most as u32),
        4 => Grant::Sized(most as u32 - 1),
        _ => Grant::Sized(sequence.between(1, most) as u32),
    };
    let uptime = sequence.pick(&image.times);
    let answer = allocate(
        image.profile(),
        &mut image.sheet,
        &mut image.heap,
        &mut image.records,
        grant,
        uptime,
        sequence.word(),
    );
    granted.extend(answer.map(|address| (address, grant)));
}

fn take_back(image: &mut Image, granted: &mut Vec<(u32, Grant)>, sequence: &mut Sequence) {
    let (address, grant) = granted.swap_remove(sequence.below(granted.len()));
    let uptime = sequence.pick(&image.times);
    free(
        image.profile(),
        &mut image.sheet,
        &mut image.heap,
        &mut image.records,
        address,
        grant,
        uptime,
        sequence.word(),
    )
    .expect("a granted buffer is freed as it was granted");
}

/// A client stores any bytes, or the fill of free buffers, which must not make its
/// buffer free.
fn store_some(image: &mut Image, address: u32, sequence: &mut Sequence) {
    let (profile, records) = (image.profile(), &image.records);
    let shown = show(profile, &image.sheet, &image.heap, records, address);
    let room = shown.expect("a granted buffer is shown").bytes.len();
    let offset = sequence.below(room + 1);
    let bytes = if sequence.once_in(2) {
        let fill = word_bytes(image.order(), FREE_FILL);
        fill.repeat(image.shape.size / 4)[offset..room].to_vec()
    } else {
        let length = sequence.below(room - offset + 1);
        sequence.bytes(length)
    };
    store(
        profile,
        &image.sheet,
        &mut image.heap,
        &image.records,
        address,
        offset as u32,
        &bytes,
    )
    .expect("the bytes are the client's");
}

/// Moves every record to another place and rewrites whatever names it: pairing is
/// read, never assumed. Until now record i is buffer i's.
fn pair_anew(image: &mut Image, sequence: &mut Sequence) {
    let shape = image.shape;
    let mut places: Vec<usize> = (0..shape.count).collect();
    if !sequence.once_in(8) {
        sequence.shuffle(&mut places);
    }
    let record_size = image.record_size();
    let moved = |image: &Image, address: u32| match image.record_at(address) {
        Some(record) => image.record_address(places[record]),
        None => address,
    };

    image.put_head(moved(image, image.head()));
    let order = image.order();
    let old_records = image.records.clone();
    for (old, &place) in old_records.chunks_exact(record_size).zip(&places) {
        let start = place * record_size;
        image.records[start..start + record_size].copy_from_slice(old);
        let next = moved(image, word(order, old, NEXT));
        image.put_record_word(start + NEXT, next);
    }
    for buffer in 0..shape.count {
        let (t0, t1) = (image.t0(buffer), image.t1(buffer));
        let tag = image.tag(buffer);
        let own_record = moved(image, image.heap_word(t0));
        image.put_heap_word(t0, own_record);
        image.put_heap_word(t1, own_record ^ tag);
    }
}

/// Puts any words where no rule reads: slab, cache, thread and all that follow.
fn fill_unread_words(image: &mut Image, sequence: &mut Sequence) {
    let (order, record_size) = (image.order(), image.record_size());
    for record in image.records.chunks_exact_mut(record_size) {
        for at in [8, 12].into_iter().chain((24..record_size).step_by(4)) {
            put_word(order, record, at, sequence.word());
        }
    }
}

/// A log of few rows, of none, or of the most there may be.
pub fn some_log(image: &Image, sequence: &mut Sequence) -> Vec<u8> {
    let rows = match sequence.below(32) {
        0 => 1024,
        1..=4 => 0,
        5..=8 => 1,
        _ => sequence.between(2, 24),
    };
    (0..rows).flat_map(|_| some_row(image, sequence)).collect()
}

/// A row that most often names a record, with any thread and kind.
fn some_row(image: &Image, sequence: &mut Sequence) -> Vec<u8> {
    let record = sequence.below(image.shape.count);
    let named = match sequence.below(16) {
        0 => sequence.word(),
        1 => image.record_address(record) + 4,
        2 => image.shape.buffer_address(record),
        _ => image.record_address(record),
    };
    let uptime = match sequence.below(16) {
        0 => sequence.word(),
        _ => sequence.pick(&image.times),
    };
    let words = [named, uptime, sequence.word(), sequence.below(4) as u32];
    let bytes = words.map(|word| word_bytes(image.order(), word));
    bytes.concat()
}
