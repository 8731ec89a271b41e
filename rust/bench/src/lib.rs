//! The images that are timed, for the benchmark and for what writes them to files.

pub mod images;
mod turn;
