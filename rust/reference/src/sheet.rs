//! The sheet: 48 or 52 bytes of tagged fields, and the limits on their numbers.

use crate::profile::Profile;
use crate::refusal::Refusal;
use crate::words::{put_word, Order};

/// "The sheet gains tag 9." "A sheet of 52 bytes has it."
pub const SHEET_LENGTH: usize = 52;

/// The form without tag 9: "one of 48 bytes means 0".
pub const SHORT_SHEET_LENGTH: usize = 48;

/// "Flags are 0x020f."
pub const FLAGS: u32 = 0x020f;

/// Where the body of tag 7, the chain head, stands: all lengths before it are fixed,
/// and tag 9 comes after it.
const HEAD_AT: usize = 39;

/// "Tags 1 to 8 stand once each, in order", then "tag 9, length 1" in the longer
/// form: each tag with its length.
const FIELDS: [(u8, u16); 9] = [
    (1, 4),
    (2, 4),
    (3, 4),
    (4, 2),
    (5, 2),
    (6, 2),
    (7, 4),
    (8, 2),
    (9, 1),
];

/// The numbers of the fields, by their tags from 1 on, and the profile they are read
/// under.
#[derive(Clone, Copy)]
pub struct Sheet {
    pub cache: u32,
    pub heap_base: u32,
    pub record_base: u32,
    pub size: u32,
    pub chunk_size: u32,
    pub count: u32,
    pub head: u32,
    pub flags: u32,
    pub order: Order,
    pub profile: Profile,
}

impl Sheet {
    /// Refusal 1, the sheet has "neither form", then refusal 2, "a sheet number
    /// breaks a limit or a rule", or tag 9 has "other values" than 0 and 1.
    pub fn read(profile: Profile, bytes: &[u8]) -> Result<Sheet, Refusal> {
        let numbers = read_fields(bytes).ok_or(Refusal::plain(1))?;
        let sheet = Sheet::from_numbers(profile, numbers).ok_or(Refusal::plain(2))?;
        if !sheet.obeys_limits() {
            return Err(Refusal::plain(2));
        }
        Ok(sheet)
    }

    /// The numbers by name; none if the last means no order.
    fn from_numbers(profile: Profile, numbers: [u32; 9]) -> Option<Sheet> {
        let [cache, heap_base, record_base, size, chunk_size, count, head, flags, order] = numbers;
        Some(Sheet {
            cache,
            heap_base,
            record_base,
            size,
            chunk_size,
            count,
            head,
            flags,
            order: Order::from_number(order)?,
            profile,
        })
    }

    /// The limits of "Sheet and areas". "Cache address and chain head may be any number."
    pub fn obeys_limits(&self) -> bool {
        let size = u64::from(self.size);
        let chunk_size = u64::from(self.chunk_size);
        let count = u64::from(self.count);
        let heap_base = u64::from(self.heap_base);
        let record_base = u64::from(self.record_base);

        let size_is_lawful = size.is_multiple_of(8) && (8..=4096).contains(&size);
        let chunk_size_is_lawful = chunk_size == size + 16;
        let count_is_lawful = (1..=512).contains(&count);
        if !(size_is_lawful && chunk_size_is_lawful && count_is_lawful) {
            return false;
        }
        let heap_length = count * chunk_size;
        let record_length = count * u64::from(self.profile.record_size());
        heap_length <= 65_536
            && self.flags == FLAGS
            && base_is_lawful(heap_base, heap_length)
            && base_is_lawful(record_base, record_length)
            && share_no_address(heap_base, heap_length, record_base, record_length)
    }

    /// "The heap area is n chunks."
    pub fn heap_length(&self) -> usize {
        self.count as usize * self.chunk_size as usize
    }

    /// "The record area is n records" of the profile's length.
    pub fn record_length(&self) -> usize {
        self.count as usize * self.record_size()
    }

    /// How many bytes a record has.
    pub fn record_size(&self) -> usize {
        self.profile.record_size() as usize
    }

    /// The address of record `index`, below n.
    pub fn record_address(&self, index: u32) -> u32 {
        self.record_base + index * self.profile.record_size()
    }

    /// Whether an allocate may ask for so many bytes: "1 to buffer size", or "requests
    /// run from 1 to buffer size less 8".
    pub fn is_lawful_request(&self, request: u32) -> bool {
        (1..=self.size - self.profile.header_length()).contains(&request)
    }

    /// Writes the nine fields over 52 bytes. "Sheet fields stay big-endian."
    pub fn write(&self, bytes: &mut [u8]) {
        let numbers = [
            self.cache,
            self.heap_base,
            self.record_base,
            self.size,
            self.chunk_size,
            self.count,
            self.head,
            self.flags,
            self.order.number(),
        ];
        let mut at = 0;
        for (number, (tag, length)) in numbers.into_iter().zip(FIELDS) {
            let body = at + 3;
            let end = body + usize::from(length);
            bytes[at] = tag;
            bytes[at + 1..body].copy_from_slice(&length.to_be_bytes());
            bytes[body..end].copy_from_slice(&number.to_be_bytes()[4 - usize::from(length)..]);
            at = end;
        }
    }
}

/// "Tagged fields, a one-byte tag, a two-byte length, the body." None unless
/// there are 48 or 52 bytes with the stated tags and lengths. "One of 48 bytes
/// means 0" for the order.
fn read_fields(bytes: &[u8]) -> Option<[u32; 9]> {
    let fields = match bytes.len() {
        SHORT_SHEET_LENGTH => &FIELDS[..8],
        SHEET_LENGTH => &FIELDS[..],
        _ => return None,
    };
    let mut numbers = [0; 9];
    let mut at = 0;
    for (number, &(tag, length)) in numbers.iter_mut().zip(fields) {
        let body = at + 3;
        let end = body + usize::from(length);
        if bytes[at] != tag || bytes[at + 1..body] != length.to_be_bytes() {
            return None;
        }
        for &byte in &bytes[body..end] {
            *number = *number * 256 + u32::from(byte);
        }
        at = end;
    }
    Some(numbers)
}

/// Writes the chain head into a sheet of either form. "Sheet fields stay big-endian."
pub fn put_head(sheet: &mut [u8], head: u32) {
    put_word(Order::HighFirst, sheet, HEAD_AT, head);
}

/// "Both bases are non-zero multiples of 8; base plus area length is at most 2^32."
fn base_is_lawful(base: u64, length: u64) -> bool {
    base != 0 && base.is_multiple_of(8) && base + length <= 1 << 32
}

/// "The two address ranges share no address."
fn share_no_address(base: u64, length: u64, other_base: u64, other_length: u64) -> bool {
    base + length <= other_base || other_base + other_length <= base
}

/// The lengths a sheet gives its heap area and its record area, or refusal 1 or 2.
pub fn area_lengths(profile: Profile, sheet: &[u8]) -> Result<(usize, usize), Refusal> {
    let sheet = Sheet::read(profile, sheet)?;
    Ok((sheet.heap_length(), sheet.record_length()))
}

/// The order a sheet gives the words of its areas, or refusal 1 or 2. It is 2 where
/// the sheet is lawful under neither profile: the kernel profile's records are the
/// shorter, so it takes every sheet the other takes.
pub fn sheet_order(sheet: &[u8]) -> Result<Order, Refusal> {
    Ok(Sheet::read(Profile::Kernel, sheet)?.order)
}
