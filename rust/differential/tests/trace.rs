//! What the traced program is held to is what the reference answers to the same calls.

use std::fs;
use std::path::Path;

use differential::trace::trace;

#[test]
fn stored_trace() {
    let stored = Path::new(env!("CARGO_MANIFEST_DIR")).join("../../crates/call_trace/stdout");
    let text = fs::read_to_string(stored).expect("the stored trace");
    assert_eq!(text, trace());
}
