//! The dump in each form with areas of many lengths, so that refusals stand beside each other and the
//! first has to be given.

use differential::samples::dump;
use differential::{Image, KERNEL_FORMS};

pub fn each_length(mut see: impl FnMut(&Image)) {
    for form in KERNEL_FORMS {
        for sheet_length in (0..=3).chain(40..=56) {
            let mut image = dump(form);
            image.sheet.resize(sheet_length, 0);
            each_length_of_areas(&image, &mut see);
        }
    }
}

fn each_length_of_areas(sound: &Image, see: &mut impl FnMut(&Image)) {
    let (heap, records) = (sound.heap.len(), sound.records.len());
    for heap_length in [0, 1, heap - 40, heap - 1, heap, heap + 1, heap + 40] {
        for record_length in [0, records - 96, records - 1, records, records + 1] {
            let mut image = sound.clone();
            image.heap.resize(heap_length, 0);
            image.records.resize(record_length, 0);
            see(&image);
        }
    }
}
