//! Numbers as the texts have them, and in words.

use combgallop::{Chain, Ending, Latest, Refusal, Transaction};

use crate::found::{Buffer, Found};

/// What has to be said beside latest transactions where no uptime is given.
pub const NO_NOW: &str =
    "no --now: latest is right if the uptime has not wrapped (it does every 49.7 days)";

/// An address, or a word of the image: all eight digits.
pub fn address(address: u32) -> String {
    format!("{address:#010x}")
}

/// The words of a buffer's verdict, with its size or the place of the hurt.
pub fn verdict(buffer: &Buffer) -> String {
    let words = buffer.verdict.meaning().words;
    match (buffer.verdict.size(), buffer.hurt()) {
        (Some(size), _) => format!("{words}, size {size}"),
        (_, Some(hurt)) => format!("{words}, first at {}", address(hurt)),
        _ => String::from(words),
    }
}

/// A fault by its number and name, and the offset of the hurt.
pub fn fault(buffer: &Buffer) -> String {
    let meaning = buffer.verdict.meaning();
    let fault = format!("fault {}, {}", meaning.number, meaning.name);
    match buffer.verdict.offset() {
        Some(offset) => format!("{fault} at offset {offset}"),
        None => fault,
    }
}

pub fn chain(chain: Chain) -> String {
    let ending = match chain.ending {
        Ending::End => String::from("ends"),
        Ending::Broken => String::from("leads to no record"),
        Ending::Again(record) => format!("comes back to record {record}"),
    };
    format!("the chain of free buffers {ending}")
}

/// The chain's line, as the library's report has it.
pub fn chain_line(chain: Chain) -> String {
    let met = chain.met;
    match chain.ending {
        Ending::End => format!("chain {met} end"),
        Ending::Broken => format!("chain {met} broken"),
        Ending::Again(record) => format!("chain {met} again {record}"),
    }
}

/// The latest transaction of a buffer.
pub fn latest(found: &Found, buffer: u32) -> String {
    match found.latest(buffer) {
        Ok(latest) => transaction(latest, found.now),
        Err(refusal) => refused(refusal),
    }
}

fn transaction(transaction: Transaction, now: Option<u32>) -> String {
    let Transaction { thread, uptime, .. } = transaction;
    let nobody = if thread == 0 { " (nobody)" } else { "" };
    let age = match now {
        Some(now) => format!(" {} ms ago,", transaction.age(now)),
        None => String::new(),
    };
    let place = place(transaction);
    format!("thread {thread:#x}{nobody}, uptime {uptime} ms,{age} {place}")
}

fn place(transaction: Transaction) -> String {
    let kind = match transaction.kind {
        Some(1) => String::from("allocate"),
        Some(2) => String::from("free"),
        Some(kind) => format!("kind {kind}"),
        None => String::new(),
    };
    match transaction.place {
        Latest::Record(index) => format!("record {index}"),
        Latest::Row(index) => format!("{kind}, row {index}"),
    }
}

fn refused(refusal: Refusal) -> String {
    let (number, name) = (refusal.number(), refusal.meaning().name);
    if refusal.detail() == 0 {
        return format!("refused {number}, {name}");
    }
    format!("refused {number}, damage: {name}")
}
