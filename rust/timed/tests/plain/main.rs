//! The calls in plain C and the reference answer alike and leave the same bytes.

mod calls;
mod counts;
mod draw;
mod inspect;
mod latest;
mod lengths;
mod lent;
mod twin;
