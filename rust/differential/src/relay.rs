//! The sample for the desk: a relay's heap after ten grants, of which three were freed, and
//! two hurts. All of it is made with the reference's calls, and each call is a row of the log.

use reference::{allocate, free, Grant};

use crate::words::{put_bytes, word_bytes};
use crate::{Form, Image, Shape};

const SIZE: u32 = 20;

/// Who gets the buffers 0 to 9, one every second from uptime 81,000 on.
const HOLDERS: [u32; 10] = [0x41, 0x42, 0x43, 0x41, 0x44, 0x43, 0x41, 0x44, 0x42, 0x41];

/// Who frees which buffer, one every second after that. The first of these is granted anew.
const FREED: [(u32, u32); 4] = [(4, 0x44), (2, 0x43), (7, 0x44), (5, 0x43)];

/// Fifteen buffers of 24 bytes. Thread 0x42 has got buffer 4, for 20 bytes, and has written 44
/// from its start on: over its guard, its redzone and its tag, and over the first word of
/// buffer 5, which is free. Thread 0x42 also wrote one byte too many to buffer 8.
pub fn relay() -> Image {
    let shape = Shape {
        cache: 0x7003_9928,
        heap_base: 0x3001_0000,
        record_base: 0x3002_0000,
        size: 24,
        count: 15,
    };
    let mut image = Image::laid_out(Form::High, shape, [0; 5]);
    for (uptime, thread) in (81_000..).step_by(1000).zip(HOLDERS) {
        grant(&mut image, uptime, thread);
    }
    let mut freed = FREED.into_iter();
    let (buffer, thread) = freed.next().expect("four buffers");
    give_back(&mut image, buffer, 90_500, thread);
    grant(&mut image, 91_000, 0x42);
    for (uptime, (buffer, thread)) in (92_000..).step_by(1000).zip(freed) {
        give_back(&mut image, buffer, uptime, thread);
    }
    let frame: Vec<u8> = (0x10..0x10 + 44).collect();
    let overrun = image.buffer(4);
    put_bytes(&mut image.heap, overrun, &frame);
    let guard = image.buffer(8) + SIZE as usize;
    image.heap[guard] = 0;
    image
}

fn grant(image: &mut Image, uptime: u32, thread: u32) {
    let Image {
        sheet,
        heap,
        records,
        ..
    } = image;
    let profile = image.form.profile();
    let size = Grant::Sized(SIZE);
    let granted = allocate(profile, sheet, heap, records, size, uptime, thread);
    let address = granted.expect("a free buffer");
    log(image, address, uptime, thread, 1);
}

fn give_back(image: &mut Image, buffer: u32, uptime: u32, thread: u32) {
    let address = image.shape.buffer_address(buffer as usize);
    let Image {
        sheet,
        heap,
        records,
        ..
    } = image;
    let profile = image.form.profile();
    let size = Grant::Sized(SIZE);
    let freed = free(profile, sheet, heap, records, address, size, uptime, thread);
    freed.expect("a granted buffer");
    log(image, address, uptime, thread, 2);
}

/// A row for a call on the buffer at an address: lay out has paired it with the record of its
/// own index.
fn log(image: &mut Image, address: u32, uptime: u32, thread: u32, kind: u32) {
    let buffer = image.shape.buffer_at(address).expect("a buffer");
    let row = [image.record_address(buffer), uptime, thread, kind];
    let order = image.order();
    let bytes = row.map(|word| word_bytes(order, word));
    image.log.extend(bytes.concat());
}
