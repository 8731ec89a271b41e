//! Images one small step from the dump, every one of them.

use reference::{Grant, Profile};

use crate::image::{full_r0, REDZONE};
use crate::magazines::cache;
use crate::samples::dump;
use crate::{Form, Image};

/// In each of these forms, each byte of the dump's sheet, heap and records, changed to each
/// other value; with its allocated buffer as it is, granted whole, and granted at the
/// largest size.
pub fn each_neighbour(forms: &[Form], mut see: impl FnMut(&Image)) {
    for &form in forms {
        let image = dump(form);
        let as_it_is = image.told_grant(1);
        let largest = Grant::Sized(image.most_request() as u32);
        for grant in [as_it_is, Grant::Whole, largest] {
            each_changed_byte(form, grant, &mut see);
        }
    }
}

/// The same with the allocated buffer granted so.
fn each_changed_byte(form: Form, grant: Grant, see: &mut impl FnMut(&Image)) {
    let mut image = dump(form);
    image.put_grant(1, grant);
    each_byte(&mut image, see);
}

/// In each of these forms, the dump with its last buffer in a magazine, so that the chain has
/// one record: each byte changed to each other value, and each bit of the magazine word.
pub fn each_cached_neighbour(forms: &[Form], mut see: impl FnMut(&Image)) {
    for &form in forms {
        let mut image = dump(form);
        cache(&mut image, &[0]);
        each_byte(&mut image, &mut see);
        for bit in 0..32 {
            image.magazines[0] ^= 1 << bit;
            see(&image);
            image.magazines[0] ^= 1 << bit;
        }
    }
}

/// Each byte of sheet, heap and records, changed to each other value.
fn each_byte(image: &mut Image, see: &mut impl FnMut(&Image)) {
    let lengths = [image.sheet.len(), image.heap.len(), image.records.len()];
    for (area, length) in lengths.into_iter().enumerate() {
        for at in 0..length {
            each_value(image, area, at, see);
        }
    }
}

/// Every value of one byte; the byte is then as it was.
fn each_value(image: &mut Image, area: usize, at: usize, see: &mut impl FnMut(&Image)) {
    let stood = *image.byte_mut(area, at);
    for value in 0..=255 {
        *image.byte_mut(area, at) = value;
        see(image);
    }
    *image.byte_mut(area, at) = stood;
}

/// In each of these forms, every small R1 of the dump's allocated buffer, past the code of
/// its buffer size, with R0 of either grant and with the guard byte everywhere or nowhere;
/// where the profile has a header, without it and with that of the size coded.
pub fn each_small_size_code(forms: &[Form], mut see: impl FnMut(&Image)) {
    for &form in forms {
        let headers: &[bool] = match form.profile() {
            Profile::Kernel => &[false],
            Profile::Userland => &[false, true],
        };
        for &has_header in headers {
            for byte in [0xbb, 0xba] {
                for r0 in [REDZONE, full_r0(form.order())] {
                    each_size_code(form, byte, r0, has_header, &mut see);
                }
            }
        }
    }
}

/// The same with this byte in the buffer, and with this R0.
fn each_size_code(form: Form, byte: u8, r0: u32, has_header: bool, see: &mut impl FnMut(&Image)) {
    let mut image = dump(form);
    let buffer = image.buffer(1)..image.r0(1);
    image.heap[buffer].fill(byte);
    image.put_heap_word(image.r0(1), r0);
    for r1 in 0..7_000 {
        image.put_heap_word(image.r1(1), r1);
        if has_header {
            image.put_header(1, r1 / 251);
        }
        see(&image);
    }
}
