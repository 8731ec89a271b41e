//! The report program: the sheet's length, sheet, heap, records and log from standard
//! input, the report or `refused N` to standard output.

use std::io::{self, Read, Write};

use reference::{program, SHEET_LENGTH};

/// One length byte, the longest sheet, heap and record area of the program's profile,
/// and one byte more than the longest log. Input that goes on beyond this has a log too
/// long even so, or is refused for its sheet, so no more of it is read.
const MOST_INPUT: usize = 1 + SHEET_LENGTH + 65_536 + 512 * 96 + 16_384 + 1;

fn main() -> io::Result<()> {
    let mut input = Vec::new();
    // A failed read ends the input; the bytes read before it are kept.
    let _ = io::stdin()
        .lock()
        .take(MOST_INPUT as u64)
        .read_to_end(&mut input);
    io::stdout().write_all(&program(&input))
}
