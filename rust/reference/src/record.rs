//! Where a record's words stand, under either profile, and how long a log row is.

/// Where a record's words stand: "next at 0, buffer address 4, slab 8, cache 12,
/// timestamp 16 (eight bytes), thread 24".
pub const NEXT_AT: usize = 0;
pub const ADDRESS_AT: usize = 4;
pub const CACHE_AT: usize = 12;
pub const STAMP_AT: usize = 16;
pub const THREAD_AT: usize = 24;

/// "The log is 0 to 1,024 rows of 16 bytes: record address, uptime, thread, kind."
pub const ROW_SIZE: usize = 16;
pub const MOST_LOG_BYTES: usize = 16_384;
