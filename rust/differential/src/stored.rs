//! The images that `crates/stored_images` reports on: the dump, and what one change makes
//! of it, under each profile and in each order. Each image stands behind one byte, 0 for the
//! kernel profile and 1 for userland: a sheet of the long form, three chunks of 40 bytes
//! and three records of 96, or of 100. There is no log, and the magazine list is empty.

use reference::{report_text, Profile};

use crate::image::{full_r0, ADDRESS, FREE_FILL, GUARD, HEAP_BASE_BODY, NEXT, ORDER_BODY, REDZONE};
use crate::samples::dump;
use crate::words::{put_sheet_word, word_bytes};
use crate::{Form, Image, LONG_FORMS};

/// One change to the dump. Its buffers 0 and 2 are free, and buffer 1 is out on a grant
/// whose size is coded as 20; the chain is record 2, then record 0.
type Change = fn(&mut Image);

const CHANGES: [Change; 31] = [
    |_| (),
    // Pairing and tags.
    |image| put_address(image, 0, image.shape.buffer_address(1)),
    |image| image.put_heap_word(image.t1(0), 0x8440_c68f),
    |image| image.put_heap_word(image.t0(0), image.record_address(1)),
    // The chain: again, cut short, and at an allocated buffer's record.
    |image| put_next(image, 0, image.record_address(2)),
    |image| put_next(image, 2, 0),
    |image| put_next(image, 0, image.record_address(1)),
    // Bytes of free chunks.
    |image| image.heap[9] = 0,
    |image| image.heap[103] = 0,
    |image| image.heap[29] = 0,
    // Size codes that are none.
    |image| image.put_heap_word(image.r1(1), 0x139e),
    |image| image.put_heap_word(image.r1(1), 1),
    |image| image.put_heap_word(image.r1(1), 0x1884),
    // The guard and the redzone, of a coded size of 20, of the full size, and whole.
    |image| image.heap[60] = 0,
    |image| image.heap[65] = 0,
    grant_full_size,
    |image| {
        grant_full_size(image);
        image.heap[66] = 0;
    },
    |image| image.put_heap_word(image.r1(1), REDZONE),
    |image| {
        image.put_heap_word(image.r1(1), REDZONE);
        image.heap[64] = 0;
    },
    // Words that are no record's address, and an empty chain.
    |image| image.put_head(0x1234_5678),
    |image| put_next(image, 2, image.record_address(0) + 4),
    |image| image.put_head(0),
    // The sheet: a tag, the flags, the heap base.
    |image| image.sheet[0] = 2,
    |image| image.sheet[47] = 0x0e,
    |image| put_sheet_word(&mut image.sheet, HEAP_BASE_BODY, 0),
    // What is not judged.
    store_free_fill,
    |image| image.heap[62] = 0x55,
    // The field of the order: its tag, its length, no order, and the other order.
    |image| image.sheet[48] = 8,
    |image| image.sheet[50] = 2,
    |image| image.sheet[ORDER_BODY] = 2,
    |image| image.sheet[ORDER_BODY] ^= 1,
];

/// Changes to the header of buffer 1, which userland alone has: each of its words, the
/// header of another size, its words turned, and coded sizes below 9 with their guard.
const HEADER_CHANGES: [Change; 7] = [
    |image| image.put_heap_word(image.buffer(1), 0x15),
    |image| image.put_heap_word(image.buffer(1) + 4, 0x3a10_bfed),
    |image| image.put_header(1, 19),
    |image| image.heap[40..48].reverse(),
    |image| code_size(image, 8),
    |image| code_size(image, 1),
    |image| {
        grant_full_size(image);
        image.put_header(1, 20);
    },
];

fn put_next(image: &mut Image, record: usize, next: u32) {
    image.put_record_word(image.record(record) + NEXT, next);
}

fn put_address(image: &mut Image, record: usize, address: u32) {
    image.put_record_word(image.record(record) + ADDRESS, address);
}

fn grant_full_size(image: &mut Image) {
    image.put_header(1, 24);
    image.put_heap_word(image.r0(1), full_r0(image.order()));
    image.put_heap_word(image.r1(1), 0x1789);
}

/// Buffer 1 has this coded size, with its header and, over that, its guard.
fn code_size(image: &mut Image, coded_size: u32) {
    image.put_header(1, coded_size);
    image.put_heap_word(image.r1(1), 251 * coded_size + 1);
    let guard = image.buffer(1) + coded_size as usize;
    image.heap[guard] = GUARD;
}

/// The client has stored what free buffers are filled with.
fn store_free_fill(image: &mut Image) {
    let client = image.client(1);
    let fill = word_bytes(image.order(), FREE_FILL).repeat(client.len() / 4);
    let start = image.buffer(1) + client.start;
    image.heap[start..start + fill.len()].copy_from_slice(&fill);
}

/// Every change to the dump, of the kernel profile and then of userland, and of each first
/// with the high byte first and then with the low one.
fn images() -> Vec<Image> {
    LONG_FORMS.into_iter().flat_map(changed).collect()
}

/// The dump of a form by each change that there is under its profile.
fn changed(form: Form) -> Vec<Image> {
    let changes = match form.profile() {
        Profile::Kernel => CHANGES.to_vec(),
        Profile::Userland => [&CHANGES[..], &HEADER_CHANGES].concat(),
    };
    let images = changes.into_iter().map(|change| {
        let mut image = dump(form);
        change(&mut image);
        image
    });
    images.collect()
}

/// The byte that names a profile.
fn named(profile: Profile) -> u8 {
    match profile {
        Profile::Kernel => 0,
        Profile::Userland => 1,
    }
}

/// All images, one behind the other, each behind its profile.
pub fn input() -> Vec<u8> {
    let images = images().into_iter();
    let inputs = images.map(|image| [vec![named(image.profile())], image.bytes()].concat());
    inputs.flatten().collect()
}

/// The answer to each image, one behind the other: the reference's report, or `refused N`.
pub fn text() -> Vec<u8> {
    images().iter().flat_map(answer).collect()
}

fn answer(image: &Image) -> Vec<u8> {
    let Image {
        sheet,
        heap,
        records,
        log,
        magazines,
        ..
    } = image;
    let text = report_text(image.profile(), sheet, heap, records, magazines, log);
    let text = text.unwrap_or_else(|refusal| format!("refused {}\n", refusal.number));
    text.into_bytes()
}
