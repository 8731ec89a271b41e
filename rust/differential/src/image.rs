//! An image's areas and log, the magazine words it is read with, and where things stand in
//! them.

use std::ops::Range;

use reference::{lay_out, Grant, Order, Profile, SHEET_LENGTH};

use crate::profile::{header, header_length, record_size};
use crate::words::{put_bytes, put_sheet_word, put_word, sheet_word, word};
use crate::Form;

pub const ROW_SIZE: usize = 16;

/// Where the bodies of the sheet's fields stand.
pub const CACHE_BODY: usize = 3;
pub const HEAP_BASE_BODY: usize = 10;
pub const RECORD_BASE_BODY: usize = 17;
pub const SIZE_BODY: usize = 24;
pub const CHUNK_SIZE_BODY: usize = 29;
pub const COUNT_BODY: usize = 34;
pub const HEAD_BODY: usize = 39;
pub const FLAGS_BODY: usize = 46;
pub const ORDER_BODY: usize = 51;

/// Where the words stand in a record.
pub const NEXT: usize = 0;
pub const ADDRESS: usize = 4;

/// Where the halves of a record's stamp stand: it is one number of eight bytes (W5).
pub fn stamp_high(order: Order) -> usize {
    match order {
        Order::HighFirst => 16,
        Order::LowFirst => 20,
    }
}

pub fn stamp_low(order: Order) -> usize {
    match order {
        Order::HighFirst => 20,
        Order::LowFirst => 16,
    }
}

pub const FREE_FILL: u32 = 0xdead_beef;
pub const REDZONE: u32 = 0xfeed_face;
pub const GUARD: u8 = 0xbb;

/// R0 after a grant of the full size: its first byte is the guard.
pub fn full_r0(order: Order) -> u32 {
    match order {
        Order::HighFirst => 0xbbed_face,
        Order::LowFirst => 0xfeed_fabb,
    }
}

pub const ALLOCATED_TAG: u32 = 0xa110_c8ed;
pub const FREE_TAG: u32 = 0xf4ee_f4ee;

/// The numbers that a cache is laid out with, under either profile.
#[derive(Clone, Copy, Debug)]
pub struct Shape {
    pub cache: u32,
    pub heap_base: u32,
    pub record_base: u32,
    pub size: usize,
    pub count: usize,
}

impl Shape {
    pub fn chunk_size(&self) -> usize {
        self.size + 16
    }

    pub fn heap_length(&self) -> usize {
        self.count * self.chunk_size()
    }

    pub fn buffer_address(&self, buffer: usize) -> u32 {
        self.heap_base + (buffer * self.chunk_size()) as u32
    }

    /// Which buffer starts at an address, if one does.
    pub fn buffer_at(&self, address: u32) -> Option<usize> {
        self.index_of(address, self.heap_base, self.chunk_size())
    }

    /// Which part starts at an address, where each is `step` bytes from `base` on.
    fn index_of(&self, address: u32, base: u32, step: usize) -> Option<usize> {
        let distance = address.checked_sub(base)? as usize;
        let index = distance / step;
        let is_start = distance.is_multiple_of(step) && index < self.count;
        is_start.then_some(index)
    }
}

/// An image with its log. The form and the shape are what it was made with; the areas
/// may have been hurt since.
#[derive(Clone, Debug)]
pub struct Image {
    pub form: Form,
    pub shape: Shape,
    /// The uptimes that stamps and log rows are drawn from: few, so that ties occur.
    pub times: [u32; 5],
    pub sheet: Vec<u8>,
    pub heap: Vec<u8>,
    pub records: Vec<u8>,
    pub log: Vec<u8>,
    /// The list that it is read with: numbers, which have no order and are no bytes of it.
    pub magazines: Vec<u32>,
}

impl Image {
    /// An image as the reference lays it out, with an empty log and an empty list. The short
    /// form is the start of the long one: its words stand high byte first.
    pub fn laid_out(form: Form, shape: Shape, times: [u32; 5]) -> Image {
        let mut sheet = vec![0; SHEET_LENGTH];
        let mut heap = vec![0; shape.heap_length()];
        let mut records = vec![0; shape.count * record_size(form.profile())];
        lay_out(
            form.profile(),
            form.order(),
            shape.cache,
            shape.heap_base,
            shape.record_base,
            shape.size as u32,
            shape.count as u32,
            &mut sheet,
            &mut heap,
            &mut records,
        )
        .expect("a lawful shape");
        sheet.truncate(form.sheet_length());
        Image {
            form,
            shape,
            times,
            sheet,
            heap,
            records,
            log: Vec::new(),
            magazines: Vec::new(),
        }
    }

    /// A byte of the sheet, the heap or the records, areas 0, 1 and 2.
    pub fn byte_mut(&mut self, area: usize, at: usize) -> &mut u8 {
        match area {
            0 => &mut self.sheet[at],
            1 => &mut self.heap[at],
            _ => &mut self.records[at],
        }
    }

    /// The areas and the log, one behind the other.
    pub fn bytes(&self) -> Vec<u8> {
        [&self.sheet[..], &self.heap, &self.records, &self.log].concat()
    }

    /// The report program's input: one byte, the sheet's length, and then all bytes. A
    /// length that takes more than one byte is no sheet's, and is cut to its lowest.
    pub fn input(&self) -> Vec<u8> {
        [vec![self.sheet.len() as u8], self.bytes()].concat()
    }

    /// The profile to be named in every call on it.
    pub fn profile(&self) -> Profile {
        self.form.profile()
    }

    /// The order of the words that it was made with.
    pub fn order(&self) -> Order {
        self.form.order()
    }

    /// The form that its sheet has now, or that it was made with where the sheet is
    /// refused.
    pub fn read_form(&self) -> Form {
        Form::of_sheet(self.profile(), &self.sheet).unwrap_or(self.form)
    }

    pub fn record_size(&self) -> usize {
        record_size(self.profile())
    }

    pub fn record_length(&self) -> usize {
        self.shape.count * self.record_size()
    }

    pub fn record_address(&self, record: usize) -> u32 {
        self.shape.record_base + self.record(record) as u32
    }

    /// Which record starts at an address, if one does.
    pub fn record_at(&self, address: u32) -> Option<usize> {
        let shape = self.shape;
        shape.index_of(address, shape.record_base, self.record_size())
    }

    /// Where record `index` starts in the record area.
    pub fn record(&self, index: usize) -> usize {
        index * self.record_size()
    }

    /// The largest request that is not refused for its size, 0 where every one is.
    pub fn most_request(&self) -> usize {
        self.shape.size - header_length(self.profile())
    }

    pub fn heap_word(&self, at: usize) -> u32 {
        word(self.order(), &self.heap, at)
    }

    pub fn put_heap_word(&mut self, at: usize, word: u32) {
        put_word(self.order(), &mut self.heap, at, word);
    }

    pub fn record_word(&self, at: usize) -> u32 {
        word(self.order(), &self.records, at)
    }

    pub fn put_record_word(&mut self, at: usize, word: u32) {
        put_word(self.order(), &mut self.records, at, word);
    }

    pub fn put_log_word(&mut self, at: usize, word: u32) {
        put_word(self.order(), &mut self.log, at, word);
    }

    pub fn head(&self) -> u32 {
        sheet_word(&self.sheet, HEAD_BODY)
    }

    pub fn put_head(&mut self, head: u32) {
        put_sheet_word(&mut self.sheet, HEAD_BODY, head);
    }

    /// Where buffer `index` starts in the heap area.
    pub fn buffer(&self, index: usize) -> usize {
        index * self.shape.chunk_size()
    }

    /// Where the words after buffer `index` start in the heap area.
    pub fn r0(&self, index: usize) -> usize {
        self.buffer(index) + self.shape.size
    }

    pub fn r1(&self, index: usize) -> usize {
        self.r0(index) + 4
    }

    pub fn t0(&self, index: usize) -> usize {
        self.r0(index) + 8
    }

    pub fn t1(&self, index: usize) -> usize {
        self.r0(index) + 12
    }

    /// The tag word of a buffer, 0 where the heap area has been cut before it.
    pub fn tag(&self, index: usize) -> u32 {
        self.heap_word(self.t0(index)) ^ self.heap_word(self.t1(index))
    }

    /// The size that R1 codes, or the buffer size where it codes none.
    pub fn coded_size(&self, index: usize) -> usize {
        let size = self.heap_word(self.r1(index)) as usize / 251;
        size.min(self.shape.size)
    }

    /// The grant that a buffer's R1 tells, as well as it can be told.
    pub fn told_grant(&self, index: usize) -> Grant {
        match self.heap_word(self.r1(index)) {
            REDZONE => Grant::Whole,
            code => {
                let header_length = header_length(self.profile()) as u32;
                Grant::Sized((code / 251).wrapping_sub(header_length))
            }
        }
    }

    /// Where the client's bytes stand in a buffer, by what its R1 tells; none do where the
    /// coded size ends before the header.
    pub fn client(&self, index: usize) -> Range<usize> {
        match self.told_grant(index) {
            Grant::Whole => 0..self.shape.size,
            Grant::Sized(_) => {
                let start = header_length(self.profile());
                start..self.coded_size(index).max(start)
            }
        }
    }

    /// Writes the header of a coded size, where the profile has one.
    pub fn put_header(&mut self, index: usize, coded_size: u32) {
        let header = header(self.profile(), self.order(), coded_size);
        let start = self.buffer(index);
        put_bytes(&mut self.heap, start, &header);
    }

    /// Writes header, guard and redzone as a grant leaves them. The rest of the buffer and
    /// its tag stay.
    pub fn put_grant(&mut self, index: usize, grant: Grant) {
        let (r0, r1) = (self.r0(index), self.r1(index));
        self.put_heap_word(r0, REDZONE);
        self.put_heap_word(r1, REDZONE);
        if let Grant::Sized(request) = grant {
            let coded_size = request + header_length(self.profile()) as u32;
            let guard = self.buffer(index) + coded_size as usize;
            self.put_header(index, coded_size);
            put_bytes(&mut self.heap, guard, &[GUARD]);
            self.put_heap_word(r1, 251 * coded_size + 1);
        }
    }
}
