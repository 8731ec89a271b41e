//! The verified reader of one cache's heap image, and its calls.
//!
//! Every decision is made in the verified library. Here its C functions are called with
//! slices, and the numbers they answer become types. A call whose name ends in `_answer`
//! hands back the numbers as they are. No call keeps what it was lent, and whatever the
//! bytes are, each call returns. The caller names an image's profile in every call.
//!
//! Whoever reads an image starts with [`Image`], which splits a file into its parts and has the
//! readers as methods. Whoever runs a heap starts with [`lay_out`]. A [`Refusal`] is an error
//! that says in words why, and a [`Verdict`] says what is found; their words are the tables
//! [`REFUSALS`] and [`VERDICTS`].
//!
//! ```
//! use combgallop::{Image, Profile, Refusal};
//!
//! /// A line for each buffer that is hurt.
//! fn hurt(bytes: &[u8]) -> Result<Vec<String>, Refusal> {
//!     let image = Image::split(Profile::Kernel, bytes)?;
//!     let mut rows = vec![0; image.rows_length()];
//!     let findings = image.inspect(&mut rows)?;
//!     let hurt = findings.filter(|finding| finding.verdict.is_fault());
//!     Ok(hurt.map(|finding| finding.to_string()).collect())
//! }
//!
//! let lines = hurt(include_bytes!("../../../samples/relay.image"))?;
//! assert_eq!(
//!     lines[1],
//!     "buffer 5: fault 25: written to after it was freed, first at offset 0"
//! );
//! let refused = hurt(b"no image").unwrap_err();
//! assert!(refused.to_string().starts_with("refusal 1: the sheet is neither"));
//! # Ok::<(), Refusal>(())
//! ```

mod allocate;
mod answer;
mod area_lengths;
mod bad_code;
mod chain;
mod fault;
mod ffi;
mod finding;
mod free;
mod grant;
mod image;
mod inspect;
mod latest;
mod lay_out;
mod meaning;
mod order;
mod profile;
mod record;
mod refusal;
mod report;
mod sheet;
mod show;
mod store;
mod survey;
mod verdict;

pub use allocate::{allocate, allocate_answer};
pub use answer::Answer;
pub use area_lengths::{area_lengths, area_lengths_answer, AreaLengths};
pub use bad_code::BadCode;
pub use chain::{Chain, Ending};
pub use fault::Fault;
pub use finding::{Finding, Findings};
pub use free::{free, free_answer};
pub use grant::Grant;
pub use image::Image;
pub use inspect::{inspect, inspect_answer};
pub use latest::{latest, latest_answer, Latest};
pub use lay_out::{lay_out, lay_out_answer};
pub use meaning::{Meaning, BROKEN_HEAD, REFUSALS, VERDICTS};
pub use order::Order;
pub use profile::Profile;
pub use record::{Record, Row, Transaction};
pub use refusal::Refusal;
pub use report::{report, report_answer};
pub use sheet::Sheet;
pub use show::{show, show_answer};
pub use store::{store, store_answer};
pub use survey::{survey, survey_answer, Survey};
pub use verdict::Verdict;
