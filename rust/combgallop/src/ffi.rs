//! The C functions of the library, as its header declares them. Each area is a pointer,
//! which is never null, and then its length in elements.

extern "C" {
    pub fn cg_area_lengths(
        userland: bool,
        sheet: *const u8,
        sheet_length: usize,
        lengths: *mut u32,
        lengths_length: usize,
    ) -> u64;

    pub fn cg_inspect(
        userland: bool,
        sheet: *const u8,
        sheet_length: usize,
        heap: *const u8,
        heap_length: usize,
        records: *const u8,
        records_length: usize,
        magazines: *const u32,
        magazines_length: usize,
        rows: *mut u32,
        rows_length: usize,
    ) -> u64;

    pub fn cg_survey(
        userland: bool,
        sheet: *const u8,
        sheet_length: usize,
        heap: *const u8,
        heap_length: usize,
        records: *const u8,
        records_length: usize,
        magazines: *const u32,
        magazines_length: usize,
        log: *const u8,
        log_length: usize,
        rows: *mut u32,
        rows_length: usize,
        chain: *mut u32,
        chain_length: usize,
    ) -> u64;

    pub fn cg_latest(
        userland: bool,
        sheet: *const u8,
        sheet_length: usize,
        heap: *const u8,
        heap_length: usize,
        records: *const u8,
        records_length: usize,
        log: *const u8,
        log_length: usize,
        index: u32,
        now: u32,
    ) -> u64;

    pub fn cg_report(
        userland: bool,
        sheet: *const u8,
        sheet_length: usize,
        heap: *const u8,
        heap_length: usize,
        records: *const u8,
        records_length: usize,
        magazines: *const u32,
        magazines_length: usize,
        log: *const u8,
        log_length: usize,
        output: *mut u8,
        output_length: usize,
    ) -> u64;

    pub fn cg_lay_out(
        userland: bool,
        low_first: bool,
        cache: u32,
        heap_base: u32,
        record_base: u32,
        size: u32,
        count: u32,
        sheet: *mut u8,
        sheet_length: usize,
        heap: *mut u8,
        heap_length: usize,
        records: *mut u8,
        records_length: usize,
    ) -> u64;

    pub fn cg_allocate(
        userland: bool,
        sheet: *mut u8,
        sheet_length: usize,
        heap: *mut u8,
        heap_length: usize,
        records: *mut u8,
        records_length: usize,
        whole: bool,
        size: u32,
        uptime: u32,
        thread: u32,
    ) -> u64;

    pub fn cg_free(
        userland: bool,
        sheet: *mut u8,
        sheet_length: usize,
        heap: *mut u8,
        heap_length: usize,
        records: *mut u8,
        records_length: usize,
        address: u32,
        whole: bool,
        size: u32,
        uptime: u32,
        thread: u32,
    ) -> u64;

    pub fn cg_store(
        userland: bool,
        sheet: *const u8,
        sheet_length: usize,
        heap: *mut u8,
        heap_length: usize,
        records: *const u8,
        records_length: usize,
        address: u32,
        offset: u32,
        bytes: *const u8,
        bytes_length: usize,
    ) -> u64;

    pub fn cg_show(
        userland: bool,
        sheet: *const u8,
        sheet_length: usize,
        heap: *const u8,
        heap_length: usize,
        records: *const u8,
        records_length: usize,
        address: u32,
    ) -> u64;
}
