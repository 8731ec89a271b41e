//! The report with addresses and words, and below it what is known of each hurt buffer.

use combgallop::{Image, Refusal};

use crate::evidence;
use crate::found::{Buffer, Found};
use crate::words;

/// What stands in the chain's line where a buffer's has two spaces and its address.
const NO_ADDRESS: &str = "            ";

pub fn text(found: &Found) -> Result<String, Refusal> {
    let mut text = summary(found, &library_report(found.image)?);
    for buffer in found.faults() {
        text += "\n";
        text += &part(found, buffer);
    }
    if found.now.is_none() && found.faults().next().is_some() {
        text += &format!("\n{}\n", words::NO_NOW);
    }
    Ok(text)
}

/// The text as the library writes it, with as much room as it needs.
fn library_report(image: Image) -> Result<String, Refusal> {
    let mut output = vec![0; 1 << 16];
    loop {
        match image.report(&mut output) {
            Err(Refusal::ShortOutput) => output.resize(2 * output.len(), 0),
            Err(refusal) => return Err(refusal),
            Ok(length) => return Ok(String::from_utf8_lossy(&output[..length]).into_owned()),
        }
    }
}

/// The lines of the library's report: a first one, one for each buffer, the chain's and the
/// count of faults.
fn summary(found: &Found, report: &str) -> String {
    let columns = found.buffers.iter().map(|buffer| {
        let address = words::address(buffer.address);
        format!("  {address}  {}", words::verdict(buffer))
    });
    let chain = format!("{NO_ADDRESS}  {}", words::chain(found.chain));
    let columns = columns.chain([chain]);
    let mut lines = report.lines();
    let first = lines.next().unwrap_or_default();
    let described: Vec<(String, &str)> = columns.zip(lines.by_ref()).collect();
    let longest = described.iter().map(|(_, line)| line.len()).max();
    let width = longest.unwrap_or_default();
    let mut text = format!("{first}\n");
    for (column, line) in described {
        text += &format!("{line:width$}{column}\n");
    }
    for line in lines {
        text += &format!("{line}\n");
    }
    text
}

/// What is known of a buffer with a fault.
fn part(found: &Found, buffer: &Buffer) -> String {
    let (address, fault) = (words::address(buffer.address), words::fault(buffer));
    let (index, meaning) = (buffer.index, buffer.verdict.meaning());
    let mut text = format!("buffer {index} at {address}: {fault}\n");
    let mut lines = vec![
        format!("words      {}", meaning.words),
        format!("look       {}", meaning.look),
    ];
    lines.extend(evidence::lines(found, buffer));
    lines.push(format!("latest     {}", words::latest(found, index)));
    lines.push(format!("left       {}", left(found, buffer)));
    for line in lines {
        text += &format!("  {line}\n");
    }
    text
}

/// The buffer before it in memory.
fn left(found: &Found, buffer: &Buffer) -> String {
    let Some(index) = buffer.index.checked_sub(1) else {
        return String::from("none, it is the first buffer");
    };
    let left = &found.buffers[index as usize];
    let state = if left.verdict.is_fault() {
        words::fault(left)
    } else {
        words::verdict(left)
    };
    let (address, latest) = (words::address(left.address), words::latest(found, index));
    format!("buffer {index} at {address}: {state}; latest {latest}")
}
