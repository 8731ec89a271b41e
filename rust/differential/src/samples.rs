//! The stored images: the guide's dump, the guide's corrupt buffer, and a relay's heap.

use reference::{Order, Profile};

use crate::image::{ADDRESS, GUARD, NEXT};
use crate::relay::relay;
use crate::words::word_bytes;
use crate::{Form, Image, Shape};

const CACHE: u32 = 0x7003_9928;

/// Three buffers of 24 bytes, the middle one allocated with 20. Its last word is as the
/// grant's fill left it, before the guard.
#[rustfmt::skip]
const DUMP_HEAP: [u32; 30] = [
    0xdeadbeef, 0xdeadbeef, 0xdeadbeef, 0xdeadbeef, 0xdeadbeef, 0xdeadbeef,
    0xfeedface, 0xfeedface, 0x70ae3260, 0x8440c68e,
    0x00000005, 0x0004ef83, 0x00000000, 0x00000000, 0x00000001, 0xbaddcafe,
    0xfeedface, 0x0000139d, 0x70ae3200, 0xd1befaed,
    0xdeadbeef, 0xdeadbeef, 0xdeadbeef, 0xdeadbeef, 0xdeadbeef, 0xdeadbeef,
    0xfeedface, 0xfeedface, 0x70ae31a0, 0x8440c54e,
];

/// The same under the userland profile: the records are 100 bytes apart, and the middle
/// buffer, whose size is coded as 20 too, has a header, 0x14 and 0x3a10c000 - 0x14, before
/// the 12 bytes of its client. 0x70ae3268 xor 0xf4eef4ee is 0x8440c686, and 0x70ae3204 xor
/// 0xa110c8ed is 0xd1befae9.
#[rustfmt::skip]
const USERLAND_HEAP: [u32; 30] = [
    0xdeadbeef, 0xdeadbeef, 0xdeadbeef, 0xdeadbeef, 0xdeadbeef, 0xdeadbeef,
    0xfeedface, 0xfeedface, 0x70ae3268, 0x8440c686,
    0x00000014, 0x3a10bfec, 0x00000005, 0x0004ef83, 0x00000001, 0xbaddcafe,
    0xfeedface, 0x0000139d, 0x70ae3204, 0xd1befae9,
    0xdeadbeef, 0xdeadbeef, 0xdeadbeef, 0xdeadbeef, 0xdeadbeef, 0xdeadbeef,
    0xfeedface, 0xfeedface, 0x70ae31a0, 0x8440c54e,
];

/// Where the guard of the middle buffer stands. It is one byte in the fill of the grant,
/// ba dd ca fe, or fe ca dd ba where the low byte stands first.
const GUARD_AT: usize = 60;

/// A free buffer of 24 bytes whose first word was overwritten.
#[rustfmt::skip]
const CORRUPT_HEAP: [u32; 10] = [
    0x00000000, 0xdeadbeef, 0xdeadbeef, 0xdeadbeef, 0xdeadbeef, 0xdeadbeef,
    0xfeedface, 0xfeedface, 0x703785a0, 0x84d9714e,
];

/// The dump case: record 0 names buffer 2 and record 2 names buffer 0, as the guide's
/// dump pairs them. The chain is record 2, then record 0. Of the same in userland the guide
/// has no dump.
pub fn dump(form: Form) -> Image {
    let shape = Shape {
        cache: CACHE,
        heap_base: 0x70a9_add8,
        record_base: 0x70ae_31a0,
        size: 24,
        count: 3,
    };
    let mut image = Image::laid_out(form, shape, [0; 5]);
    image.heap = bytes(
        form.order(),
        match form.profile() {
            Profile::Kernel => &DUMP_HEAP,
            Profile::Userland => &USERLAND_HEAP,
        },
    );
    image.heap[GUARD_AT] = GUARD;
    for record in 0..3 {
        let start = image.record(record);
        image.put_record_word(start + NEXT, 0);
        image.put_record_word(start + ADDRESS, shape.buffer_address(2 - record));
    }
    image.put_record_word(image.record(2) + NEXT, image.record_address(0));
    image.put_head(image.record_address(2));
    image
}

/// What the client of the dump's middle buffer asked for: its size is coded as 20.
pub fn dump_request(form: Form) -> u32 {
    match form.profile() {
        Profile::Kernel => 20,
        Profile::Userland => 12,
    }
}

/// One buffer, whose record is where its T0 says.
pub fn corrupt(form: Form) -> Image {
    let shape = Shape {
        cache: CACHE,
        heap_base: 0x702b_abc0,
        record_base: 0x7037_85a0,
        size: 24,
        count: 1,
    };
    let mut image = Image::laid_out(form, shape, [0; 5]);
    image.heap = bytes(form.order(), &CORRUPT_HEAP);
    image
}

/// The images of the samples, by name.
pub fn stored_samples() -> [(&'static str, Image); 4] {
    [
        ("dump", dump(Form::Short)),
        ("dump_low", dump(Form::Low)),
        ("corrupt", corrupt(Form::Short)),
        ("relay", relay()),
    ]
}

fn bytes(order: Order, words: &[u32]) -> Vec<u8> {
    let bytes = words.iter().flat_map(|word| word_bytes(order, *word));
    bytes.collect()
}

/// Bytes written in hexadecimal, with a comment behind each `#`.
pub fn from_hex(text: &str) -> Vec<u8> {
    let code = text.lines().filter_map(|line| line.split('#').next());
    let digits = code
        .flat_map(str::chars)
        .filter_map(|sign| sign.to_digit(16));
    let digits: Vec<u8> = digits.map(|digit| digit as u8).collect();
    let bytes = digits.chunks(2).map(|pair| pair[0] * 16 + pair[1]);
    bytes.collect()
}
