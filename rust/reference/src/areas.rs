//! The heap and record areas with their sheet, and which addresses lie in them.

use crate::chunk::Chunk;
use crate::profile::Profile;
use crate::record::{ADDRESS_AT, MOST_LOG_BYTES, ROW_SIZE, STAMP_AT};
use crate::refusal::Refusal;
use crate::sheet::Sheet;
use crate::words::{long, word};

/// A lawful sheet with a heap area and a record area of the right lengths.
pub struct Areas<'a> {
    pub sheet: Sheet,
    pub heap: &'a [u8],
    pub records: &'a [u8],
}

impl<'a> Areas<'a> {
    /// "Order: 1, 2, 3 always", where no log is given.
    pub fn read(
        profile: Profile,
        sheet: &[u8],
        heap: &'a [u8],
        records: &'a [u8],
    ) -> Result<Areas<'a>, Refusal> {
        let sheet = Sheet::read(profile, sheet)?;
        if heap.len() != sheet.heap_length() || records.len() != sheet.record_length() {
            return Err(Refusal::plain(3));
        }
        Ok(Areas {
            sheet,
            heap,
            records,
        })
    }

    /// "3 tests the log where one is given": "log not a multiple of 16 or over 16,384".
    pub fn read_with_log(
        profile: Profile,
        sheet: &[u8],
        heap: &'a [u8],
        records: &'a [u8],
        log: &[u8],
    ) -> Result<Areas<'a>, Refusal> {
        let areas = Areas::read(profile, sheet, heap, records)?;
        if !log.len().is_multiple_of(ROW_SIZE) || log.len() > MOST_LOG_BYTES {
            return Err(Refusal::plain(3));
        }
        Ok(areas)
    }

    /// The count of buffers n, which is also the count of records.
    pub fn count(&self) -> usize {
        self.sheet.count as usize
    }

    /// The address of buffer `index`, the start of its chunk.
    pub fn buffer_address(&self, index: usize) -> u32 {
        self.sheet.heap_base + self.sheet.chunk_size * index as u32
    }

    /// The address of record `index`.
    pub fn record_address(&self, index: usize) -> u32 {
        self.sheet.record_address(index as u32)
    }

    /// The buffer that starts at an address, if one does.
    pub fn buffer_at(&self, address: u32) -> Option<usize> {
        self.index_of(address, self.sheet.heap_base, self.sheet.chunk_size)
    }

    /// The record that starts at an address, if one does.
    pub fn record_at(&self, address: u32) -> Option<usize> {
        self.index_of(
            address,
            self.sheet.record_base,
            self.sheet.profile.record_size(),
        )
    }

    /// Which of the n parts, `step` bytes each from `base` on, starts at an address.
    fn index_of(&self, address: u32, base: u32, step: u32) -> Option<usize> {
        let distance = address.checked_sub(base)?;
        let index = distance / step;
        let is_start = distance.is_multiple_of(step) && index < self.sheet.count;
        is_start.then_some(index as usize)
    }

    /// The chunk of buffer `index`.
    pub fn chunk(&self, index: usize) -> Chunk<'a> {
        let chunk_size = self.sheet.chunk_size as usize;
        let start = index * chunk_size;
        let bytes = &self.heap[start..start + chunk_size];
        Chunk::new(
            self.sheet.profile,
            self.sheet.order,
            bytes,
            self.sheet.size as usize,
        )
    }

    /// The word at an offset in record `index`.
    pub fn record_word(&self, index: usize, at: usize) -> u32 {
        let start = index * self.sheet.record_size();
        word(self.sheet.order, self.records, start + at)
    }

    /// The timestamp of record `index`, "as one eight-byte number".
    pub fn record_stamp(&self, index: usize) -> u64 {
        let start = index * self.sheet.record_size();
        long(self.sheet.order, self.records, start + STAMP_AT)
    }

    /// The buffer that record `index` names by its address word, if it names one.
    pub fn named_buffer(&self, index: usize) -> Option<usize> {
        self.buffer_at(self.record_word(index, ADDRESS_AT))
    }

    /// For each buffer its own record, "the one record whose address word names
    /// the buffer"; none where not exactly one record names it.
    pub fn own_records(&self) -> Vec<Option<usize>> {
        let mut namers = vec![Vec::new(); self.count()];
        for record in 0..self.count() {
            if let Some(buffer) = self.named_buffer(record) {
                namers[buffer].push(record);
            }
        }
        namers
            .iter()
            .map(|names| match names[..] {
                [own] => Some(own),
                _ => None,
            })
            .collect()
    }
}
