//! The images that are timed.

use differential::hurt::{Hurt, HURTS};
use differential::magazines::cache;
use differential::{word_bytes, Form, Image, Sequence, Shape};
use reference::{allocate, free, Grant, Order};

use crate::turn::low_first;

/// The sizes and counts of the largest images: the longest buffers, the most buffers,
/// and the most buffers with the largest heap area there may be, 65,536 bytes.
pub const LARGEST: [(usize, usize); 3] = [(4096, 15), (24, 512), (112, 512)];

/// How an image of a form, and so under a profile, is made, with buffers of a size and a
/// count of them.
pub type Make = fn(Form, usize, usize) -> Image;

/// A way to make an image, and whether every buffer of it is free, so that all of its
/// buffers' bytes are compared with the free fill.
pub type Kind = (&'static str, Make, bool);

pub const KINDS: [Kind; 5] = [
    ("all free", all_free, true),
    ("half allocated", half_allocated, false),
    ("hurt", hurt, false),
    ("all free, chain reversed", chained_back, true),
    ("all free, chain in long jumps", chained_far, true),
];

/// Any number does; the hurts follow from it.
const SEED: u64 = 1;

/// The hurts that leave the image's areas and chain to be read, so that every buffer
/// has to be judged.
const HURT_KINDS: [&str; 4] = ["pairing", "tag", "free", "allocated"];

const UPTIME: u32 = 1000;
const THREAD: u32 = 7;

pub fn shape(size: usize, count: usize) -> Shape {
    Shape {
        cache: 0x7003_9928,
        heap_base: 0x70a9_a000,
        record_base: 0x70ae_3000,
        size,
        count,
    }
}

/// Every buffer is free, and the chain goes through the records in order.
pub fn all_free(form: Form, size: usize, count: usize) -> Image {
    Image::laid_out(form, shape(size, count), [0; 5])
}

/// Every buffer is free and in a magazine, and the chain is empty. Each word of the list is so
/// many buffers behind the one before it.
pub fn all_cached(form: Form, size: usize, count: usize, step: usize) -> Image {
    let mut image = all_free(form, size, count);
    let records: Vec<usize> = (0..count).map(|i| i * step % count).collect();
    cache(&mut image, &records);
    image
}

/// Every second buffer is out.
pub fn half_allocated(form: Form, size: usize, count: usize) -> Image {
    let mut image = all_allocated(form, size, count);
    for buffer in (0..count).step_by(2) {
        take_back(&mut image, buffer);
    }
    image
}

/// Every buffer is free, and the chain starts at the last record and goes back.
pub fn chained_back(form: Form, size: usize, count: usize) -> Image {
    let order: Vec<usize> = (0..count).rev().collect();
    chained(form, size, count, &order)
}

/// Every buffer is free, and each link of the chain goes about half the records away.
pub fn chained_far(form: Form, size: usize, count: usize) -> Image {
    let order: Vec<usize> = (0..count).map(|i| i * (count / 2 + 1) % count).collect();
    chained(form, size, count, &order)
}

/// Every buffer is free, and the chain goes through the records in this order, which
/// is the order of their buffers' frees from the last to the first.
fn chained(form: Form, size: usize, count: usize, order: &[usize]) -> Image {
    let mut image = all_allocated(form, size, count);
    for &buffer in order.iter().rev() {
        take_back(&mut image, buffer);
    }
    image
}

/// Half of the buffers are out, and there are as many hurts as buffers. Some hurts follow
/// from what they find, and would not be the same in both orders: the image with the low
/// byte first is turned from the other.
pub fn hurt(form: Form, size: usize, count: usize) -> Image {
    match form {
        Form::Low => low_first(hurt_high_first(Form::High, size, count)),
        Form::UserLow => panic!("no hurt userland image is timed low byte first"),
        _ => hurt_high_first(form, size, count),
    }
}

fn hurt_high_first(form: Form, size: usize, count: usize) -> Image {
    let mut image = half_allocated(form, size, count);
    let mut sequence = Sequence::new(SEED);
    let ways: Vec<Hurt> = HURTS
        .into_iter()
        .filter(|(name, _)| HURT_KINDS.iter().any(|kind| name.starts_with(kind)))
        .collect();
    for _ in 0..count {
        let (_, way) = sequence.pick(&ways);
        way(&mut image, &mut sequence);
    }
    image
}

/// The most rows a log has.
pub const MOST_ROWS: u32 = 1024;

/// An image of the most buffers with the longest log, all of whose rows are of the last
/// buffer, each younger than the one before, or of the first; and what it is called.
pub fn logged(form: Form) -> [(&'static str, Image); 2] {
    let image = all_free(form, 112, 512);
    let last_record = image.record_address(image.shape.count - 1);
    let first_record = image.record_address(0);
    [
        ("each row younger than the one before", last_record),
        ("no row of the buffer's", first_record),
    ]
    .map(|(kind, named)| {
        let log = (1..=MOST_ROWS).flat_map(|uptime| row(form.order(), named, uptime));
        let image = Image {
            log: log.collect(),
            ..image.clone()
        };
        (kind, image)
    })
}

/// A row of the log: record address, uptime, thread, kind.
fn row(order: Order, record: u32, uptime: u32) -> Vec<u8> {
    let words = [record, uptime, THREAD, 1];
    words.map(|word| word_bytes(order, word)).concat()
}

/// Every buffer is out, whole and with several sizes in turn.
fn all_allocated(form: Form, size: usize, count: usize) -> Image {
    let mut image = all_free(form, size, count);
    for buffer in 0..count {
        let grant = grant_of(&image, buffer);
        allocate(
            form.profile(),
            &mut image.sheet,
            &mut image.heap,
            &mut image.records,
            grant,
            UPTIME,
            THREAD,
        )
        .expect("a free buffer");
    }
    image
}

fn take_back(image: &mut Image, buffer: usize) {
    let grant = grant_of(image, buffer);
    free(
        image.profile(),
        &mut image.sheet,
        &mut image.heap,
        &mut image.records,
        image.shape.buffer_address(buffer),
        grant,
        UPTIME,
        THREAD,
    )
    .expect("a buffer that is out");
}

/// What a buffer is granted as: whole, and the largest, the smallest and half of the size.
fn grant_of(image: &Image, buffer: usize) -> Grant {
    match buffer % 4 {
        0 => Grant::Whole,
        1 => Grant::Sized(image.most_request() as u32),
        2 => Grant::Sized(1),
        _ => Grant::Sized(image.shape.size as u32 / 2),
    }
}
