//! The C functions. Each area is a pointer, which is never null, and then its length in
//! elements.

extern "C" {
    pub fn plain_inspect(
        sheet: *const u8,
        sheet_length: usize,
        heap: *const u8,
        heap_length: usize,
        records: *const u8,
        records_length: usize,
        magazines: *const u32,
        magazines_length: usize,
        rows: *mut u32,
        rows_length: usize,
    ) -> u64;

    pub fn plain_latest(
        sheet: *const u8,
        sheet_length: usize,
        heap: *const u8,
        heap_length: usize,
        records: *const u8,
        records_length: usize,
        log: *const u8,
        log_length: usize,
        index: u32,
        now: u32,
    ) -> u64;

    pub fn plain_allocate(
        sheet: *mut u8,
        sheet_length: usize,
        heap: *mut u8,
        heap_length: usize,
        records: *mut u8,
        records_length: usize,
        whole: bool,
        size: u32,
        uptime: u32,
        thread: u32,
    ) -> u64;

    pub fn plain_free(
        sheet: *mut u8,
        sheet_length: usize,
        heap: *mut u8,
        heap_length: usize,
        records: *mut u8,
        records_length: usize,
        address: u32,
        whole: bool,
        size: u32,
        uptime: u32,
        thread: u32,
    ) -> u64;

    pub fn timed_first_difference(s: *const u8, len: usize, word: u32) -> u64;

    pub fn timed_difference_by_bytes(s: *const u8, len: usize, word: u32) -> u64;

    pub fn timed_fill(s: *mut u8, len: usize, word: u32) -> bool;
}
