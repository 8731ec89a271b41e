//! What only the benchmark calls: inspect, the latest transaction, allocate and free in
//! plain C, beside which the library's are timed, and the library's fill test and fill by
//! themselves.

mod ffi;
mod fill;
mod plain;

pub use fill::{difference_by_bytes, fill, first_difference};
pub use plain::{plain_allocate, plain_free, plain_inspect, plain_latest};
