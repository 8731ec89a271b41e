//! The words of records and of the log's rows.

use crate::{Latest, Order};

/// How long a row of the log is.
pub(crate) const ROW_LENGTH: usize = 16;

/// The words of a record that a rule reads.
#[derive(Clone, Copy, PartialEq, Eq, Debug)]
pub struct Record {
    /// The address of the record that the chain goes on to.
    pub next: u32,
    /// The address of the buffer that the record names.
    pub buffer: u32,
    /// The uptime in milliseconds. A latest transaction has one below 2^32.
    pub stamp: u64,
    pub thread: u32,
}

impl Record {
    pub(crate) fn read(order: Order, bytes: &[u8]) -> Option<Record> {
        let stamp = bytes.get(16..24)?.try_into().ok()?;
        Some(Record {
            next: word(order, bytes, 0)?,
            buffer: word(order, bytes, 4)?,
            stamp: order.long(stamp),
            thread: word(order, bytes, 24)?,
        })
    }
}

/// A row of the log.
#[derive(Clone, Copy, PartialEq, Eq, Debug)]
pub struct Row {
    /// The address of a record.
    pub record: u32,
    /// In milliseconds.
    pub uptime: u32,
    pub thread: u32,
    /// 1 for allocate, 2 for free. No rule reads it.
    pub kind: u32,
}

impl Row {
    pub(crate) fn read(order: Order, bytes: &[u8]) -> Option<Row> {
        Some(Row {
            record: word(order, bytes, 0)?,
            uptime: word(order, bytes, 4)?,
            thread: word(order, bytes, 8)?,
            kind: word(order, bytes, 12)?,
        })
    }
}

/// What a row or a record says of a transaction, and where it stands.
#[derive(Clone, Copy, PartialEq, Eq, Debug)]
pub struct Transaction {
    pub place: Latest,
    pub thread: u32,
    /// In milliseconds.
    pub uptime: u32,
    /// That of a row.
    pub kind: Option<u32>,
}

impl Transaction {
    /// How many milliseconds ago it was, at the uptime `now`, modulo 2^32.
    pub fn age(self, now: u32) -> u32 {
        now.wrapping_sub(self.uptime)
    }
}

fn word(order: Order, bytes: &[u8], at: usize) -> Option<u32> {
    let bytes = bytes.get(at..at + 4)?.try_into().ok()?;
    Some(order.word(bytes))
}
