//! Images on which the verified library and the reference must agree: sound ones,
//! made with the reference's calls, and ones hurt in every way the rules name, under both
//! profiles, in both orders and in both forms of the sheet.
//!
//! All of it follows from a seed, so that each image can be made again.

mod case;
pub mod chain;
mod form;
pub mod hurt;
mod image;
pub mod latest;
pub mod magazines;
pub mod neighbours;
mod profile;
mod relay;
pub mod samples;
mod sequence;
mod sound;
pub mod stored;
pub mod trace;
mod words;

pub use case::Case;
pub use form::{Form, FORMS, KERNEL_FORMS, KERNEL_LONG_FORMS, LONG_FORMS, USER_FORMS};
pub use image::{full_r0, Image, Shape};
pub use profile::{header, header_length, other_profile, record_size, PROFILES};
pub use sequence::Sequence;
pub use sound::{move_areas, some_shape, sound_image};
pub use words::{put_sheet_word, word_bytes};
