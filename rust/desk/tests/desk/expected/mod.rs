//! What the command has to print, written a second time from `docs/DESK.md`: the findings are
//! the second program's, the words those of the README, the bytes those of the rules.

mod chunk;
mod dump;
mod evidence;
mod json;
mod map;
mod report;
mod transaction;
mod words;

pub use dump::{open, Dump};
pub use evidence::NO_NOW;
pub use json::{json_object, json_refusal};
pub use map::{cell, map_text};
pub use report::report_text;
pub use transaction::{transaction_text, Place, Transaction};
pub use words::REDZONE;
