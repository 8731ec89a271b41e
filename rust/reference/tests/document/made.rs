//! The calls, made on an image under its own profile, and what is found of its buffers,
//! with an empty magazine list where none is given.

use crate::image::*;
use reference::*;

pub fn allocated_by(thread: u32, image: &mut Image, grant: Grant) -> Result<u32, Refusal> {
    let Image {
        form,
        sheet,
        heap,
        records,
    } = image;
    let profile = form.profile();
    allocate(profile, sheet, heap, records, grant, UPTIME, thread)
}

pub fn allocated(image: &mut Image, grant: Grant) -> Result<u32, Refusal> {
    allocated_by(1, image, grant)
}

pub fn freed_by(thread: u32, image: &mut Image, address: u32, grant: Grant) -> Result<(), Refusal> {
    let Image {
        form,
        sheet,
        heap,
        records,
    } = image;
    let profile = form.profile();
    free(
        profile, sheet, heap, records, address, grant, UPTIME, thread,
    )
}

pub fn freed(image: &mut Image, address: u32, grant: Grant) -> Result<(), Refusal> {
    freed_by(1, image, address, grant)
}

pub fn stored(image: &mut Image, address: u32, offset: u32, bytes: &[u8]) -> Result<(), Refusal> {
    let Image {
        form,
        sheet,
        heap,
        records,
    } = image;
    store(form.profile(), sheet, heap, records, address, offset, bytes)
}

pub fn shown(image: &Image, address: u32) -> Result<Shown<'_>, Refusal> {
    let profile = image.form.profile();
    show(profile, &image.sheet, &image.heap, &image.records, address)
}

/// The number and value of the verdict on one buffer, under a profile.
pub fn verdict_under(profile: Profile, image: &Image, index: usize) -> (u32, u32) {
    let mut rows = [Finding::default(); 3];
    inspect(
        profile,
        &image.sheet,
        &image.heap,
        &image.records,
        &[],
        &mut rows,
    )
    .unwrap();
    let verdict = rows[index].verdict;
    (verdict.number(), verdict.value())
}

pub fn verdict(image: &Image, index: usize) -> (u32, u32) {
    verdict_under(image.form.profile(), image, index)
}

pub fn inspected(image: &Image, magazines: &[u32], rows: &mut [Finding]) -> Result<usize, Refusal> {
    let profile = image.form.profile();
    let (sheet, heap, records) = (&image.sheet, &image.heap, &image.records);
    inspect(profile, sheet, heap, records, magazines, rows)
}

/// The findings on the three buffers of an image, with the index of each tested.
pub fn findings_with(image: &Image, magazines: &[u32]) -> [Finding; 3] {
    let mut rows = [Finding::default(); 3];
    assert_eq!(inspected(image, magazines, &mut rows), Ok(3));
    assert_eq!(rows.map(|row| row.index), [0, 1, 2]);
    rows
}

/// The number and value of the verdict on each of three buffers.
pub fn verdicts_with(image: &Image, magazines: &[u32]) -> [(u32, u32); 3] {
    let rows = findings_with(image, magazines);
    rows.map(|row| (row.verdict.number(), row.verdict.value()))
}

pub fn verdicts(image: &Image) -> [(u32, u32); 3] {
    verdicts_with(image, &[])
}

pub fn reported(
    image: &Image,
    magazines: &[u32],
    log: &[u8],
    output: &mut [u8],
) -> Result<usize, Refusal> {
    let profile = image.form.profile();
    let (sheet, heap, records) = (&image.sheet, &image.heap, &image.records);
    report(profile, sheet, heap, records, magazines, log, output)
}

/// The report on an image without a log.
pub fn text_with(image: &Image, magazines: &[u32]) -> String {
    let mut output = [0; 16_384];
    let length = reported(image, magazines, &[], &mut output).unwrap();
    String::from_utf8(output[..length].to_vec()).unwrap()
}

pub fn text(image: &Image) -> String {
    text_with(image, &[])
}
