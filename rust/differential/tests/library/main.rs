//! The verified library and the reference answer alike, and leave every lent byte
//! alike.

mod area_lengths;
mod calls;
mod corner;
mod counts;
mod crossed;
mod expected;
mod forms;
mod image;
mod inspect;
mod latest;
mod lent;
mod listed;
mod long;
mod magazines;
mod report;
mod size_code;
mod survey;
mod umem;
mod userland;
