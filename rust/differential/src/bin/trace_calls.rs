//! Writes the lines that the traced program has to write, `crates/call_trace/stdout`.

use differential::trace::trace;

fn main() {
    print!("{}", trace());
}
