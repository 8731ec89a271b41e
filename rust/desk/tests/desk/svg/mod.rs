//! The picture of `map --svg`.

mod picture;
mod xml;
