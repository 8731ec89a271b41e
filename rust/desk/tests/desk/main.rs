//! The command `combgallop` does what `docs/DESK.md` says. What it has to find comes from the
//! second program, what it has to call it from the tables of the README, and neither from the
//! command itself.

mod bad_input;
mod cases;
mod counts;
mod documents;
mod expected;
mod explain;
mod help;
mod input;
mod json;
mod judge;
mod map;
mod met;
mod output;
mod question;
mod repaired;
mod report;
mod run;
mod samples;
mod status;
mod svg;
mod table;
mod terminal;
mod worked;
