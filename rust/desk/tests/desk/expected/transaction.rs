//! A latest transaction, and how it is told.

use reference::Refusal;

use crate::table;

/// Where a transaction stands: in a record, or in a row of the log, with its kind.
#[derive(Clone, Copy, PartialEq, Eq, Debug)]
pub enum Place {
    Record(usize),
    Row(usize, u32),
}

#[derive(Clone, Copy, Debug)]
pub struct Transaction {
    pub place: Place,
    pub thread: u32,
    pub uptime: u32,
    /// None without `--now`.
    pub age: Option<u32>,
}

/// Thread 0 is nobody.
pub fn thread_text(thread: u32) -> String {
    match thread {
        0 => String::from("0x0 (nobody)"),
        _ => format!("{thread:#x}"),
    }
}

fn place_text(place: Place) -> String {
    match place {
        Place::Record(record) => format!("record {record}"),
        Place::Row(row, 1) => format!("allocate, row {row}"),
        Place::Row(row, 2) => format!("free, row {row}"),
        Place::Row(row, kind) => format!("kind {kind}, row {row}"),
    }
}

/// The name of a refusal; behind that of damage the name of the verdict that is its detail.
fn refusal_text(refusal: Refusal) -> String {
    let number = refusal.number;
    let name = &table::refusal(number).name;
    match number {
        7 => {
            let verdict = table::verdict(u32::from(refusal.detail));
            format!("refused 7, {name}: {}", verdict.name)
        }
        _ => format!("refused {number}, {name}"),
    }
}

pub fn transaction_text(latest: &Result<Transaction, Refusal>) -> String {
    let found = match latest {
        Ok(found) => found,
        Err(refusal) => return refusal_text(*refusal),
    };
    let Transaction {
        place,
        thread,
        uptime,
        age,
    } = *found;
    let thread = thread_text(thread);
    let age = age.map(|age| format!("{age} ms ago, ")).unwrap_or_default();
    let place = place_text(place);
    format!("thread {thread}, uptime {uptime} ms, {age}{place}")
}
