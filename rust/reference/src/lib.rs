//! One cache's heap image, read, judged and changed by the rules document.
//!
//! This is the second program the document compares others with: each function
//! follows a sentence of the document and names it. No public function panics,
//! whatever its arguments are; a refused call changes no byte lent to it. The caller
//! names the profile of an image in every call that reads or writes one.

mod areas;
mod calls;
mod chain;
mod chunk;
mod inspect;
mod latest;
mod magazines;
mod profile;
mod program;
mod record;
mod refusal;
mod report;
mod sheet;
mod size_code;
mod verdict;
mod words;

pub use calls::{allocate, free, lay_out, show, store, Shown};
pub use chain::{chain, Chain, Ending};
pub use chunk::Grant;
pub use inspect::{inspect, Finding};
pub use latest::{latest, Latest};
pub use profile::Profile;
pub use program::program;
pub use refusal::Refusal;
pub use report::{report, report_text};
pub use sheet::{area_lengths, sheet_order, SHEET_LENGTH, SHORT_SHEET_LENGTH};
pub use size_code::CodeHurt;
pub use verdict::Verdict;
pub use words::Order;
