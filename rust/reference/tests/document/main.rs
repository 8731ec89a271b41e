//! The document's cases. Every expected value here was worked out by hand from the
//! rules document.

mod allocate;
mod chain;
mod free;
mod image;
mod inputs;
mod latest;
mod lay_out;
mod ledger;
mod low_first;
mod made;
mod magazines;
mod program;
mod refusals;
mod report;
mod sheet;
mod size_code;
mod store_show;
mod thread;
mod userland;
mod verdicts;
