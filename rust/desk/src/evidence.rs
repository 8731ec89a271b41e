//! What an image shows of a fault: the bytes around the hurt one, or the words that its rule
//! reads.

use combgallop::Verdict;

use crate::chunk::{Chunk, Expected, REDZONE};
use crate::found::{Buffer, Found};
use crate::words;

/// How many bytes are shown around a hurt one.
const SHOWN: usize = 16;

/// The lines for a buffer with a fault.
pub fn lines(found: &Found, buffer: &Buffer) -> Vec<String> {
    let Some(chunk) = Chunk::new(found.image, buffer.index) else {
        return Vec::new();
    };
    match buffer.verdict {
        Verdict::NotOneRecord => vec![records(found, buffer)],
        Verdict::BadTag => vec![tag(chunk), own(found, buffer)],
        Verdict::FreedTwice | Verdict::OffChain | Verdict::OnChain => {
            vec![place(found, buffer), listed(buffer)]
        }
        Verdict::BadFill(offset) | Verdict::BadRedzone(offset) => {
            around(buffer, chunk, &chunk.expected_free(), offset)
        }
        Verdict::Overrun(offset) => {
            let mut lines = around(buffer, chunk, &chunk.expected_allocated(), offset);
            lines.push(size_code(chunk));
            lines
        }
        Verdict::BadSizeCode(_) => vec![size_code(chunk)],
        Verdict::BadHeader => {
            let mut lines = header(buffer, chunk);
            lines.push(size_code(chunk));
            lines
        }
        Verdict::Free | Verdict::Whole | Verdict::Allocated(_) | Verdict::Cached => Vec::new(),
    }
}

fn records(found: &Found, buffer: &Buffer) -> String {
    let naming = found.naming(buffer.index);
    if naming.is_empty() {
        return String::from("records    none names it");
    }
    let naming: Vec<String> = naming.iter().map(u32::to_string).collect();
    format!("records    {} name it", naming.join(", "))
}

fn tag(chunk: Chunk) -> String {
    let (t0, t1) = (chunk.t0(), chunk.t1());
    let [t0, t1, pattern] = [t0, t1, t0 ^ t1].map(words::address);
    format!("tag        T0 {t0}, T1 {t1}, T0 xor T1 {pattern}")
}

/// The one record that names the buffer: the library has found one before it read the tag.
fn own(found: &Found, buffer: &Buffer) -> String {
    let own = found.naming(buffer.index);
    let own = own.iter().map(|record| {
        let address = words::address(found.image.record_address(*record));
        format!("own        record {record} at {address}")
    });
    own.collect()
}

fn place(found: &Found, buffer: &Buffer) -> String {
    match buffer.place {
        Some(place) => format!("chain      place {place} of {}", found.chain.met),
        None => String::from("chain      not met"),
    }
}

fn listed(buffer: &Buffer) -> String {
    match buffer.listed {
        1 => String::from("magazines  listed 1 time"),
        times => format!("magazines  listed {times} times"),
    }
}

fn size_code(chunk: Chunk) -> String {
    let r1 = chunk.r1();
    let (quotient, remainder) = (r1 / 251, r1 % 251);
    let word = words::address(r1);
    if r1 == REDZONE {
        return format!("size code  R1 {word}, the whole buffer");
    }
    format!("size code  R1 {word}, which is 251 * {quotient} + {remainder}")
}

/// The bytes around an offset, found and expected, and a mark below the hurt one.
fn around(buffer: &Buffer, chunk: Chunk, expected: &Expected, offset: u32) -> Vec<String> {
    let offset = offset as usize;
    let start = (offset / 4 * 4).saturating_sub(4);
    let end = (start + SHOWN).min(chunk.bytes().len());
    let mut lines = rows(
        buffer.address.wrapping_add(start as u32),
        &chunk.bytes()[start..end],
        &expected[start..end],
    );
    let column = rows_start() + 3 * (offset - start);
    lines.push(format!("{:column$}^^", ""));
    lines
}

fn header(buffer: &Buffer, chunk: Chunk) -> Vec<String> {
    let size = chunk.coded_size().unwrap_or_default();
    let expected: Expected = chunk.expected_header(size).into_iter().map(Some).collect();
    rows(buffer.address, chunk.header(), &expected)
}

/// Where the bytes start in a line: behind its first word, and an address and two spaces.
fn rows_start() -> usize {
    "found      0x00000000  ".len()
}

fn rows(address: u32, found: &[u8], expected: &[Option<u8>]) -> Vec<String> {
    let found: Vec<String> = found.iter().map(|byte| format!("{byte:02x}")).collect();
    let expected = expected.iter().map(|byte| match byte {
        Some(byte) => format!("{byte:02x}"),
        None => String::from(".."),
    });
    let expected: Vec<String> = expected.collect();
    let address = words::address(address);
    let column = rows_start();
    vec![
        format!("found      {address}  {}", found.join(" ")),
        format!("{:column$}{}", "expected", expected.join(" ")),
    ]
}
