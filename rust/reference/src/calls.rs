//! The calls: lay out, allocate, free, store and show.

use std::ops::Range;

use crate::areas::Areas;
use crate::chunk::{write_free, write_granted, Grant, Pattern};
use crate::profile::Profile;
use crate::record::{ADDRESS_AT, CACHE_AT, NEXT_AT, STAMP_AT, THREAD_AT};
use crate::refusal::Refusal;
use crate::sheet::{put_head, Sheet, FLAGS, SHEET_LENGTH};
use crate::verdict::Verdict;
use crate::words::{put_long, put_word, Order};

/// "Lay out writes all three areas; all buffers free; buffer i paired with record i;
/// chain 0 to n-1 in order."
/// "Lay out takes the order and always writes 52 bytes, with refusal 1 for a sheet
/// area of any other length." Then refusal "2 on its arguments", then 3.
pub fn lay_out(
    profile: Profile,
    order: Order,
    cache: u32,
    heap_base: u32,
    record_base: u32,
    size: u32,
    count: u32,
    sheet: &mut [u8],
    heap: &mut [u8],
    records: &mut [u8],
) -> Result<(), Refusal> {
    if sheet.len() != SHEET_LENGTH {
        return Err(Refusal::plain(1));
    }
    let numbers = Sheet {
        cache,
        heap_base,
        record_base,
        size,
        chunk_size: size.saturating_add(16),
        count,
        head: record_base,
        flags: FLAGS,
        order,
        profile,
    };
    if !numbers.obeys_limits() {
        return Err(Refusal::plain(2));
    }
    if heap.len() != numbers.heap_length() || records.len() != numbers.record_length() {
        return Err(Refusal::plain(3));
    }
    numbers.write(sheet);
    lay_out_chunks(&numbers, heap);
    lay_out_records(&numbers, records);
    Ok(())
}

/// "All buffers free; buffer i paired with record i."
fn lay_out_chunks(numbers: &Sheet, heap: &mut [u8]) {
    let chunks = heap.chunks_exact_mut(numbers.chunk_size as usize);
    for (index, chunk) in (0..numbers.count).zip(chunks) {
        let record_address = numbers.record_address(index);
        write_free(numbers.order, chunk, numbers.size as usize, record_address);
    }
}

/// "Each record holds next, address and cache, all else 0."
fn lay_out_records(numbers: &Sheet, records: &mut [u8]) {
    records.fill(0);
    let records = records.chunks_exact_mut(numbers.record_size());
    for (index, record) in (0..numbers.count).zip(records) {
        let is_last = index + 1 == numbers.count;
        let next = if is_last {
            0
        } else {
            numbers.record_address(index + 1)
        };
        put_word(numbers.order, record, NEXT_AT, next);
        put_word(
            numbers.order,
            record,
            ADDRESS_AT,
            numbers.heap_base + index * numbers.chunk_size,
        );
        put_word(numbers.order, record, CACHE_AT, numbers.cache);
    }
}

/// A record and the buffer it names, by their indexes.
struct Pair {
    record: usize,
    buffer: usize,
}

/// The areas of an allocate or a free by a thread. "Allocate and free now refuse a
/// thread word of 0 with number 13, after 3 and before every other test of those calls."
fn areas_for_thread<'a>(
    profile: Profile,
    sheet: &[u8],
    heap: &'a [u8],
    records: &'a [u8],
    thread: u32,
) -> Result<Areas<'a>, Refusal> {
    let areas = Areas::read(profile, sheet, heap, records)?;
    if thread == 0 {
        return Err(Refusal::plain(13));
    }
    Ok(areas)
}

/// "Allocate takes the head record, answers its buffer's address, and the head
/// becomes its next word." "A granted record's next word stays."
pub fn allocate(
    profile: Profile,
    sheet: &mut [u8],
    heap: &mut [u8],
    records: &mut [u8],
    grant: Grant,
    uptime: u32,
    thread: u32,
) -> Result<u32, Refusal> {
    let areas = areas_for_thread(profile, sheet, heap, records, thread)?;
    let Pair { record, buffer } = free_head(&areas, grant)?;
    let order = areas.sheet.order;
    let head = areas.sheet.head;
    let next = areas.record_word(record, NEXT_AT);
    let address = areas.buffer_address(buffer);
    let size = areas.sheet.size as usize;
    let chunk_size = areas.sheet.chunk_size as usize;
    let record_size = areas.sheet.record_size();

    let chunk = part(heap, buffer, chunk_size);
    write_granted(profile, order, chunk, size, head, grant);
    stamp(order, part(records, record, record_size), uptime, thread);
    put_head(sheet, next);
    Ok(address)
}

/// The head record and its buffer, fit to be granted. "6, 5, then 7: head no record
/// (29), its address word no buffer (20), T0 not the head or neither pattern (21),
/// allocated pattern (24), fill (25), redzone (26)."
fn free_head(areas: &Areas, grant: Grant) -> Result<Pair, Refusal> {
    if let Grant::Sized(request) = grant {
        if !areas.sheet.is_lawful_request(request) {
            return Err(Refusal::plain(6));
        }
    }
    let head = areas.sheet.head;
    if head == 0 {
        return Err(Refusal::plain(5));
    }
    let record = areas.record_at(head).ok_or(Refusal::damage(29))?;
    let buffer = areas.named_buffer(record).ok_or(Refusal::damage(20))?;
    let chunk = areas.chunk(buffer);
    if chunk.t0() != head {
        return Err(Refusal::damage(21));
    }
    match chunk.pattern() {
        None => return Err(Refusal::damage(21)),
        Some(Pattern::Allocated) => return Err(Refusal::damage(24)),
        Some(Pattern::Free) => {}
    }
    match chunk.judge_free() {
        Verdict::Free => Ok(Pair { record, buffer }),
        fault => Err(Refusal::damage(fault.number() as u8)),
    }
}

/// "Free refills the buffer, restores redzone and tag, puts the old head in next,
/// and its record becomes the head." Refusal 9: "size or whole differs from the grant";
/// "verdict 2 and free name the request".
pub fn free(
    profile: Profile,
    sheet: &mut [u8],
    heap: &mut [u8],
    records: &mut [u8],
    address: u32,
    grant: Grant,
    uptime: u32,
    thread: u32,
) -> Result<(), Refusal> {
    let areas = areas_for_thread(profile, sheet, heap, records, thread)?;
    let (Pair { record, buffer }, granted) = granted_buffer(&areas, address)?;
    if grant != granted {
        return Err(Refusal::plain(9));
    }
    let order = areas.sheet.order;
    let old_head = areas.sheet.head;
    let record_address = areas.record_address(record);
    let size = areas.sheet.size as usize;
    let chunk_size = areas.sheet.chunk_size as usize;
    let record_size = areas.sheet.record_size();

    write_free(order, part(heap, buffer, chunk_size), size, record_address);
    let record = part(records, record, record_size);
    put_word(order, record, NEXT_AT, old_head);
    stamp(order, record, uptime, thread);
    put_head(sheet, record_address);
    Ok(())
}

/// "Store writes bytes at an offset in an allocated buffer." Refusal 10: "offset
/// plus length passes the client's bytes". The offset counts from the first of these:
/// "store and show speak of the bytes after the header".
pub fn store(
    profile: Profile,
    sheet: &[u8],
    heap: &mut [u8],
    records: &[u8],
    address: u32,
    offset: u32,
    bytes: &[u8],
) -> Result<(), Refusal> {
    let areas = Areas::read(profile, sheet, heap, records)?;
    let (Pair { buffer, .. }, granted) = granted_buffer(&areas, address)?;
    let client = client_bytes(&areas, granted);
    if u64::from(offset) + bytes.len() as u64 > client.len() as u64 {
        return Err(Refusal::plain(10));
    }
    let buffer_start = buffer * areas.sheet.chunk_size as usize;
    let start = buffer_start + client.start + offset as usize;
    heap[start..start + bytes.len()].copy_from_slice(bytes);
    Ok(())
}

/// What show hands back: the client's own bytes, and the offset in the buffer at which
/// they start.
#[derive(Clone, Copy, PartialEq, Eq, Debug)]
pub struct Shown<'a> {
    pub offset: u32,
    pub bytes: &'a [u8],
}

/// "Show hands back the client's own bytes as a part of the heap: the first s, or
/// all when whole." "Store and show speak of the bytes after the header."
pub fn show<'a>(
    profile: Profile,
    sheet: &[u8],
    heap: &'a [u8],
    records: &[u8],
    address: u32,
) -> Result<Shown<'a>, Refusal> {
    let areas = Areas::read(profile, sheet, heap, records)?;
    let (Pair { buffer, .. }, granted) = granted_buffer(&areas, address)?;
    let client = client_bytes(&areas, granted);
    let buffer_start = buffer * areas.sheet.chunk_size as usize;
    Ok(Shown {
        offset: client.start as u32,
        bytes: &heap[buffer_start + client.start..buffer_start + client.end],
    })
}

/// The granted buffer at an address, with its grant. "Free, store, show: 4; 7 with
/// 21 if T0 names no record, that record doesn't name this buffer, or neither
/// pattern; 8; 7 with 27 or 28", or with 31 or 32, as the verdicts and "the details of
/// refusal 7" follow the size decoder, or with 30, "a possible detail of refusal 7".
fn granted_buffer(areas: &Areas, address: u32) -> Result<(Pair, Grant), Refusal> {
    let buffer = areas.buffer_at(address).ok_or(Refusal::plain(4))?;
    let chunk = areas.chunk(buffer);
    let record = areas.record_at(chunk.t0()).ok_or(Refusal::damage(21))?;
    if areas.named_buffer(record) != Some(buffer) {
        return Err(Refusal::damage(21));
    }
    match chunk.pattern() {
        None => return Err(Refusal::damage(21)),
        Some(Pattern::Free) => return Err(Refusal::plain(8)),
        Some(Pattern::Allocated) => {}
    }
    let pair = Pair { record, buffer };
    match chunk.judge_allocated() {
        Verdict::Whole => Ok((pair, Grant::Whole)),
        Verdict::Allocated(request) => Ok((pair, Grant::Sized(request))),
        fault => Err(Refusal::damage(fault.number() as u8)),
    }
}

/// Where in the buffer the client's own bytes stand: the first s of "the bytes after the
/// header", "or all when whole", since "whole grants have none".
fn client_bytes(areas: &Areas, granted: Grant) -> Range<usize> {
    match granted {
        Grant::Whole => 0..areas.sheet.size as usize,
        Grant::Sized(request) => {
            let start = areas.sheet.profile.header_length();
            start as usize..(start + request) as usize
        }
    }
}

/// "Both write timestamp (high four bytes 0, low four the uptime) and thread in the
/// record", "the stamp as one eight-byte number".
fn stamp(order: Order, record: &mut [u8], uptime: u32, thread: u32) {
    put_long(order, record, STAMP_AT, u64::from(uptime));
    put_word(order, record, THREAD_AT, thread);
}

/// The part of an area with this index, where each part has the same length.
fn part(area: &mut [u8], index: usize, length: usize) -> &mut [u8] {
    &mut area[index * length..(index + 1) * length]
}
