//! Allocates and frees that an image accepts, and ones that it refuses for every reason
//! there is.

use differential::{Image, Sequence};
use reference::{Grant, Profile, Refusal};
use timed::{plain_allocate, plain_free};

use crate::lent::Areas;

/// One call with its arguments.
#[derive(Clone, Copy, Debug)]
pub struct Call {
    /// Of the buffer that is freed; an allocate has none.
    pub address: Option<u32>,
    pub grant: Grant,
    pub uptime: u32,
    pub thread: u32,
}

impl Call {
    pub fn name(&self) -> &'static str {
        match self.address {
            None => "allocate",
            Some(_) => "free",
        }
    }

    pub fn by_reference(&self, image: &mut Image) -> Result<u32, Refusal> {
        let (sheet, heap, records) = (&mut image.sheet, &mut image.heap, &mut image.records);
        let (grant, uptime, thread) = (self.grant, self.uptime, self.thread);
        let profile = Profile::Kernel;
        match self.address {
            None => reference::allocate(profile, sheet, heap, records, grant, uptime, thread),
            Some(address) => reference::free(
                profile, sheet, heap, records, address, grant, uptime, thread,
            )
            .map(|()| 0),
        }
    }

    pub fn in_plain_c(&self, lent: &mut Areas) -> u64 {
        let (sheet, heap) = (lent.sheet.part_mut(), lent.heap.part_mut());
        let records = lent.records.part_mut();
        let size = match self.grant {
            Grant::Whole => None,
            Grant::Sized(size) => Some(size),
        };
        match self.address {
            None => plain_allocate(sheet, heap, records, size, self.uptime, self.thread),
            Some(address) => plain_free(
                sheet,
                heap,
                records,
                address,
                size,
                self.uptime,
                self.thread,
            ),
        }
    }
}

/// An allocate in `eagerness` of 32 times, else a free.
pub fn some_call(image: &Image, eagerness: usize, sequence: &mut Sequence) -> Call {
    let (address, grant) = if sequence.below(32) < eagerness {
        (None, some_grant(image.shape.size as u32, sequence))
    } else {
        let buffer = sequence.below(image.shape.count);
        let grant = near_grant(image, buffer, sequence);
        (Some(near_buffer(image, buffer, sequence)), grant)
    };
    let any = sequence.word();
    Call {
        address,
        grant,
        uptime: sequence.pick(&[image.times[0], image.times[1], 0, u32::MAX, any]),
        thread: some_thread(sequence),
    }
}

/// Any thread, now and then 0, which is nobody, or one that would be 0 if fewer of its
/// bits were read.
fn some_thread(sequence: &mut Sequence) -> u32 {
    let any = sequence.word();
    sequence.pick(&[any, any, any, any, 0, 1, 0x100, 0x1_0000, 0x8000_0000])
}

/// Whole, a lawful size, and now and then an unlawful one: 0, one too large, and sizes
/// that would be lawful if fewer of their bits were read.
fn some_grant(size: u32, sequence: &mut Sequence) -> Grant {
    let lawful = sequence.between(1, size as usize) as u32;
    let any = sequence.word();
    match sequence.below(24) {
        0..=5 => Grant::Whole,
        6 | 7 => Grant::Sized(1),
        8 | 9 => Grant::Sized(size - 1),
        10..=12 => Grant::Sized(size),
        13 => Grant::Sized(0),
        14 => Grant::Sized(size + 1),
        15 => Grant::Sized(sequence.pick(&[lawful + 0x1_0000, lawful + 0x8000_0000, u32::MAX])),
        16 => Grant::Sized(any),
        _ => Grant::Sized(lawful),
    }
}

/// Mostly the grant that a buffer's R1 tells; else one close to it, or any.
fn near_grant(image: &Image, buffer: usize, sequence: &mut Sequence) -> Grant {
    let size = image.shape.size as u32;
    let granted = image.told_grant(buffer);
    match (sequence.below(16), granted) {
        (0, _) => some_grant(size, sequence),
        (1, Grant::Whole) => Grant::Sized(size),
        (1, Grant::Sized(_)) => Grant::Whole,
        (2, Grant::Sized(size)) => Grant::Sized(size.wrapping_sub(1)),
        (3, Grant::Sized(size)) => Grant::Sized(size.wrapping_add(1)),
        (4, Grant::Sized(size)) => Grant::Sized(size.wrapping_add(0x1_0000)),
        _ => granted,
    }
}

/// Mostly the buffer's address; else one inside it, past the last, before the first, a
/// record's, or near the ends of all addresses.
fn near_buffer(image: &Image, buffer: usize, sequence: &mut Sequence) -> u32 {
    let shape = image.shape;
    let address = shape.buffer_address(buffer);
    if !sequence.once_in(10) {
        return address;
    }
    let any = sequence.word();
    let inside = sequence.between(1, shape.chunk_size() - 1) as u32;
    let step = shape.chunk_size() as u32;
    sequence.pick(&[
        any,
        address + inside,
        address ^ 4,
        address.wrapping_add(0x8000_0000),
        shape.heap_base.wrapping_sub(step),
        shape.heap_base.wrapping_add(shape.heap_length() as u32),
        image.record_address(buffer),
        0,
        0u32.wrapping_sub(step),
        u32::MAX,
    ])
}
