//! The bytes of an image, and the words of a magazine list.

use std::ffi::OsStr;
use std::fs::File;
use std::io::{stdin, Read, Result as Done};

use combgallop::area_lengths;

use crate::arguments::Reading;
use crate::failure::Failure;
use crate::number;

/// One byte more than a log can have, so that a longer one is seen, and refused.
const LOG_READ: usize = 16_384 + 1;

/// Far more than the longest list takes.
const LIST_MOST: usize = 1 << 24;

/// The bytes of the image, no more than one can have.
pub fn image(reading: &Reading) -> Result<Vec<u8>, Failure> {
    let mut bytes = Vec::new();
    let file = &reading.file;
    let read = open(file).and_then(|source| read_image(reading, source, &mut bytes));
    read.map_err(|error| Failure::of_file(file, error))?;
    Ok(bytes)
}

/// The sheet first, which says how much more there is. A sheet that is refused says nothing,
/// and no more is read: the library refuses it again when the image is split.
fn read_image(reading: &Reading, mut source: Box<dyn Read>, bytes: &mut Vec<u8>) -> Done<()> {
    read_most(&mut source, 1, bytes)?;
    let Some(&sheet_length) = bytes.first() else {
        return Ok(());
    };
    read_most(&mut source, usize::from(sheet_length), bytes)?;
    let Ok(lengths) = area_lengths(reading.profile, &bytes[1..]) else {
        return Ok(());
    };
    let rest = lengths.heap + lengths.records + LOG_READ;
    read_most(&mut source, rest, bytes)
}

fn read_most(source: &mut impl Read, length: usize, bytes: &mut Vec<u8>) -> Done<()> {
    source.take(length as u64).read_to_end(bytes)?;
    Ok(())
}

/// A file, or standard input where it is called `-`.
fn open(file: &OsStr) -> Done<Box<dyn Read>> {
    if file == "-" {
        return Ok(Box::new(stdin().lock()));
    }
    Ok(Box::new(File::open(file)?))
}

/// The words of the magazine list, none where no list is named.
pub fn magazines(reading: &Reading) -> Result<Vec<u32>, Failure> {
    let Some(file) = &reading.magazines else {
        return Ok(Vec::new());
    };
    let mut bytes = Vec::new();
    let read = open(file).and_then(|mut source| read_most(&mut source, LIST_MOST + 1, &mut bytes));
    read.map_err(|error| Failure::of_file(file, error))?;
    if bytes.len() > LIST_MOST {
        let what = format!("{file:?}: more than {LIST_MOST} bytes are no magazine list");
        return Err(Failure::Wrong(what));
    }
    words(&bytes).map_err(|(line, what)| {
        let what = format!("{file:?}, line {line}: {what}");
        Failure::Wrong(what)
    })
}

/// The numbers in a text, or the line of what is none.
fn words(bytes: &[u8]) -> Result<Vec<u32>, (usize, String)> {
    let mut words = Vec::new();
    for (line, text) in (1..).zip(bytes.split(|byte| *byte == b'\n')) {
        let text = String::from_utf8_lossy(text);
        let numbers = text.split('#').next().unwrap_or_default();
        for typed in numbers.split_whitespace() {
            let Some(word) = number::parse(typed) else {
                let what =
                    format!("{typed:?} is no number below 2^32 (hexadecimal starts with 0x)");
                return Err((line, what));
            };
            words.push(word);
        }
    }
    Ok(words)
}

#[cfg(test)]
mod tests {
    use super::words;

    #[test]
    fn words_of_a_list() {
        let text = b"# two buffers\n0x1000 4120\t# and\r\n\n0x1030";
        assert_eq!(words(text), Ok(vec![0x1000, 0x1018, 0x1030]));
        assert_eq!(words(b""), Ok(Vec::new()));
        assert_eq!(words(b"# 0x1000"), Ok(Vec::new()));
    }

    #[test]
    fn line_of_what_is_no_word() {
        let wrong: [&[u8]; 4] = [b"1\n\n70a9add8", b"1\n2\n-3 4", b"\n1 # 2\n0x", b"\n\n\xff"];
        for text in wrong {
            let found = words(text).map_err(|(line, _)| line);
            assert_eq!(found, Err(3), "{text:?}");
        }
    }
}
