//! The calls of a heap's clients.

use std::hint::black_box;

use bench::images::{all_free, shape, LARGEST};
use differential::{Form, Image, Shape};

use crate::requirement::Requirement;
use crate::table::{print_sides, SIDES_HEAD};
use crate::timing::race;

pub const UPTIME: u32 = 1000;
pub const THREAD: u32 = 7;

/// The buffer sizes with which there may be 512 buffers.
const PAIR_SIZES: [usize; 2] = [24, 112];

/// Times allocate with free, lay out, store and show.
pub fn time_calls() -> Requirement {
    let mut requirement = Requirement::new("allocate and free: 512 buffers to 1", 1.2);
    println!("{SIDES_HEAD}");
    for size in PAIR_SIZES {
        time_pairs(size, &mut requirement);
    }
    for (size, count) in LARGEST {
        time_lay_out(shape(size, count));
    }
    for (size, count) in LARGEST {
        time_store_and_show(size, count);
    }
    requirement
}

/// An allocate and the free of the same buffer, after which the chain is as before.
fn time_pairs(size: usize, requirement: &mut Requirement) {
    let grant = size as u32 - 4;
    let [mut one, mut second_one] = [(); 2].map(|()| all_free(Form::High, size, 1));
    let [mut many, mut second_many] = [(); 2].map(|()| all_free(Form::High, size, 512));
    check_pair(size, grant);
    let [at_one, second_at_one, at_many, second_at_many] = race([
        Box::new(|| pair_by_library(&mut one, grant)),
        Box::new(|| pair_by_second(&mut second_one, grant)),
        Box::new(|| pair_by_library(&mut many, grant)),
        Box::new(|| pair_by_second(&mut second_many, grant)),
    ]);
    let case = format!("allocate and free, {size}-byte buffers");
    print_sides(&format!("{case}, n = 1"), &at_one, &second_at_one);
    print_sides(&format!("{case}, n = 512"), &at_many, &second_at_many);
    requirement.add(&case, at_many.ratio(&at_one));
}

/// Both sides leave the same areas.
fn check_pair(size: usize, grant: u32) {
    let [mut image, mut second] = [(); 2].map(|()| all_free(Form::High, size, 512));
    pair_by_library(&mut image, grant);
    pair_by_second(&mut second, grant);
    assert_eq!(image.input(), second.input(), "allocate and free of {size}");
}

pub fn pair_by_library(image: &mut Image, grant: u32) {
    use combgallop::{allocate, free, Grant, Profile};
    let Image {
        sheet,
        heap,
        records,
        ..
    } = image;
    let grant = black_box(Grant::Sized(grant));
    let answer = allocate(Profile::Kernel, sheet, heap, records, grant, UPTIME, THREAD);
    let address = answer.expect("a free buffer");
    let profile = Profile::Kernel;
    let answer = free(
        profile, sheet, heap, records, address, grant, UPTIME, THREAD,
    );
    answer.expect("a granted buffer");
}

fn pair_by_second(image: &mut Image, grant: u32) {
    use reference::{allocate, free, Grant, Profile};
    let Image {
        sheet,
        heap,
        records,
        ..
    } = image;
    let grant = black_box(Grant::Sized(grant));
    let answer = allocate(Profile::Kernel, sheet, heap, records, grant, UPTIME, THREAD);
    let address = answer.expect("a free buffer");
    let profile = Profile::Kernel;
    let answer = free(
        profile, sheet, heap, records, address, grant, UPTIME, THREAD,
    );
    answer.expect("a granted buffer");
}

fn time_lay_out(shape: Shape) {
    let [mut image, mut second_image] =
        [(); 2].map(|()| all_free(Form::High, shape.size, shape.count));
    lay_out_by_library(&mut image);
    assert_eq!(image.input(), second_image.input(), "lay out of {shape:?}");
    let [rattle, second] = race([
        Box::new(|| lay_out_by_library(&mut image)),
        Box::new(|| lay_out_by_second(&mut second_image)),
    ]);
    let case = format!("lay out, {} x {}", shape.size, shape.count);
    print_sides(&case, &rattle, &second);
}

fn lay_out_by_library(image: &mut Image) {
    let shape = image.shape;
    combgallop::lay_out(
        combgallop::Profile::Kernel,
        combgallop::Order::HighFirst,
        shape.cache,
        shape.heap_base,
        shape.record_base,
        shape.size as u32,
        shape.count as u32,
        &mut image.sheet,
        &mut image.heap,
        &mut image.records,
    )
    .expect("a lawful shape");
}

fn lay_out_by_second(image: &mut Image) {
    let shape = image.shape;
    reference::lay_out(
        reference::Profile::Kernel,
        reference::Order::HighFirst,
        shape.cache,
        shape.heap_base,
        shape.record_base,
        shape.size as u32,
        shape.count as u32,
        &mut image.sheet,
        &mut image.heap,
        &mut image.records,
    )
    .expect("a lawful shape");
}

/// A whole buffer is stored to and shown.
fn time_store_and_show(size: usize, count: usize) {
    let mut image = all_free(Form::High, size, count);
    let whole = combgallop::Grant::Whole;
    let Image {
        sheet,
        heap,
        records,
        ..
    } = &mut image;
    let kernel = combgallop::Profile::Kernel;
    let second_kernel = reference::Profile::Kernel;
    let address = combgallop::allocate(kernel, sheet, heap, records, whole, UPTIME, THREAD);
    let address = address.expect("a free buffer");
    let bytes: Vec<u8> = (0..size).map(|i| i as u8).collect();
    let mut second_heap = heap.clone();
    let answer = combgallop::store(kernel, sheet, heap, records, address, 0, &bytes);
    answer.expect("the client's bytes");
    assert_eq!(&heap[..size], bytes, "store of {size}");

    let [rattle, second] = race([
        Box::new(|| {
            let bytes = black_box(&bytes);
            let answer = combgallop::store(kernel, sheet, heap, records, address, 0, bytes);
            answer.expect("the client's bytes");
        }),
        Box::new(|| {
            let (heap, bytes) = (&mut second_heap, black_box(&bytes));
            let answer = reference::store(second_kernel, sheet, heap, records, address, 0, bytes);
            answer.expect("the client's bytes");
        }),
    ]);
    let case = format!("store of {size} bytes, {size} x {count}");
    print_sides(&case, &rattle, &second);

    let by_library = || {
        let part = combgallop::show(kernel, sheet, heap, records, address);
        part.expect("the client's bytes")
    };
    let by_second = || {
        let shown = reference::show(second_kernel, sheet, heap, records, address);
        shown.expect("the client's bytes").bytes
    };
    assert_eq!(by_library(), by_second(), "show of {size}");
    let [rattle, second] = race([
        Box::new(|| _ = black_box(by_library())),
        Box::new(|| _ = black_box(by_second())),
    ]);
    print_sides(
        &format!("show of {size} bytes, {size} x {count}"),
        &rattle,
        &second,
    );
}
