//! Lays out a heap of three buffers, uses it, hurts it, and prints a report each time; then
//! lays it out anew and puts a buffer into a magazine; then lays out one of the userland
//! profile and uses it.

use combgallop::{
    allocate, lay_out, report, show, show_answer, store, Grant, Order, Profile, Refusal,
};

const HEAP_BASE: u32 = 0x1000;
const RECORD_BASE: u32 = 0x2000;
const UPTIME: u32 = 5000;
const THREAD: u32 = 0x40;

fn print_report(
    profile: Profile,
    sheet: &[u8],
    heap: &[u8],
    records: &[u8],
) -> Result<(), Refusal> {
    print_report_with(profile, sheet, heap, records, &[])
}

fn print_report_with(
    profile: Profile,
    sheet: &[u8],
    heap: &[u8],
    records: &[u8],
    magazines: &[u32],
) -> Result<(), Refusal> {
    let mut output = [0; 256];
    let length = report(profile, sheet, heap, records, magazines, &[], &mut output)?;
    print!("{}", String::from_utf8_lossy(&output[..length]));
    Ok(())
}

/// Three buffers of 24 bytes.
fn lay_out_three(
    profile: Profile,
    sheet: &mut [u8],
    heap: &mut [u8],
    records: &mut [u8],
) -> Result<(), Refusal> {
    lay_out(
        profile,
        Order::HighFirst,
        0x70,
        HEAP_BASE,
        RECORD_BASE,
        24,
        3,
        sheet,
        heap,
        records,
    )
}

/// Hurts a buffer of 24 bytes, granted with 20, in two ways.
fn hurt_buffer(sheet: &[u8], heap: &mut [u8], records: &[u8], start: usize) -> Result<(), Refusal> {
    let profile = Profile::Kernel;
    heap[start + 20] = 0; // one byte past its end, where the guard stands
    print_report(profile, sheet, heap, records)?;
    heap[start + 20] = 0xbb;
    heap[start + 30] = 0; // the word at 28, which was 00 00 13 9d, codes the size; now it codes 0
    heap[start + 31] = 1;
    print_report(profile, sheet, heap, records)
}

fn use_kernel() -> Result<(), Refusal> {
    let (mut sheet, mut heap, mut records) = ([0; 52], [0; 3 * (24 + 16)], [0; 3 * 96]);
    let profile = Profile::Kernel;
    lay_out_three(profile, &mut sheet, &mut heap, &mut records)?;
    let grant = Grant::Sized(20);
    let refused = allocate(
        profile,
        &mut sheet,
        &mut heap,
        &mut records,
        grant,
        UPTIME,
        0,
    );
    if refused != Err(Refusal::NoThread) {
        return refused.map(|_| ());
    }
    println!("thread 0 is nobody: refusal {}", Refusal::NoThread.number());
    let buffer = allocate(
        profile,
        &mut sheet,
        &mut heap,
        &mut records,
        grant,
        UPTIME,
        THREAD,
    )?;
    store(profile, &sheet, &mut heap, &records, buffer, 0, b"relay")?;
    let client = show(profile, &sheet, &heap, &records, buffer)?;
    let text = String::from_utf8_lossy(&client[..5]);
    println!(
        "buffer {buffer:#x} has {} client bytes: {text}",
        client.len()
    );
    print_report(profile, &sheet, &heap, &records)?;
    let start = (buffer - HEAP_BASE) as usize;
    hurt_buffer(&sheet, &mut heap, &records, start)
}

/// The allocator frees a buffer into a magazine: it is free, and off the chain. Here the chain
/// starts behind its record; its address in the list says where the buffer is instead.
fn use_magazine() -> Result<(), Refusal> {
    let (mut sheet, mut heap, mut records) = ([0; 52], [0; 3 * (24 + 16)], [0; 3 * 96]);
    let profile = Profile::Kernel;
    lay_out_three(profile, &mut sheet, &mut heap, &mut records)?;
    let second_record = RECORD_BASE + 96;
    sheet[39..43].copy_from_slice(&second_record.to_be_bytes()); // the chain's head
    print_report(profile, &sheet, &heap, &records)?;
    print_report_with(profile, &sheet, &heap, &records, &[HEAP_BASE])?;
    let word = HEAP_BASE + 4;
    let refused = print_report_with(profile, &sheet, &heap, &records, &[word]);
    if refused != Err(Refusal::NoSuchBuffer) {
        return refused;
    }
    let number = Refusal::NoSuchBuffer.number();
    println!("{word:#x} is no buffer: refusal {number}");
    Ok(())
}

/// The records are longer, and a grant of a size has a header.
fn use_userland() -> Result<(), Refusal> {
    let (mut sheet, mut heap, mut records) = ([0; 52], [0; 3 * (24 + 16)], [0; 3 * 100]);
    let profile = Profile::Userland;
    lay_out_three(profile, &mut sheet, &mut heap, &mut records)?;
    let grant = Grant::Sized(10);
    let buffer = allocate(
        profile,
        &mut sheet,
        &mut heap,
        &mut records,
        grant,
        UPTIME,
        THREAD,
    )?;
    store(profile, &sheet, &mut heap, &records, buffer, 0, b"relay")?;
    let client = show(profile, &sheet, &heap, &records, buffer)?;
    let start = show_answer(profile, &sheet, &heap, &records, buffer).start();
    let text = String::from_utf8_lossy(&client[..5]);
    println!(
        "userland buffer {buffer:#x} has {} client bytes from {start} on: {text}",
        client.len()
    );
    print_report(profile, &sheet, &heap, &records)
}

fn main() -> Result<(), Refusal> {
    use_kernel()?;
    use_magazine()?;
    use_userland()
}
