//! The object of `json`.

use reference::{Ending, Refusal, Verdict};

use super::dump::{Dump, Numbers};
use super::transaction::{Place, Transaction};
use crate::counts::{order_name, profile_name};
use crate::json::{object, Value};
use crate::question::Question;
use crate::table;

fn number(number: usize) -> Value {
    Value::Number(number as u64)
}

/// A number that is not always there.
fn perhaps(value: Option<u32>) -> Value {
    match value {
        Some(value) => Value::from(value),
        None => Value::Null,
    }
}

fn numbers(values: impl Iterator<Item = usize>) -> Value {
    Value::List(values.map(number).collect())
}

/// What every object starts with.
fn head(question: &Question, refused: Value) -> Vec<(&'static str, Value)> {
    vec![
        ("combgallop", Value::Number(1)),
        ("profile", Value::from(profile_name(question.profile))),
        ("now", perhaps(question.now)),
        ("refused", refused),
    ]
}

/// A refusal by the table, with its detail.
fn refusal_object(refusal: Refusal) -> Value {
    let row = table::refusal(refusal.number);
    object(vec![
        ("number", Value::from(u32::from(refusal.number))),
        ("name", Value::from(&row.name[..])),
        ("words", Value::from(&row.words[..])),
        ("detail", Value::from(u32::from(refusal.detail))),
    ])
}

/// The object of an image that is refused.
pub fn json_refusal(question: &Question, refusal: Refusal) -> Value {
    object(head(question, refusal_object(refusal)))
}

/// The object of any other image.
pub fn json_object(question: &Question, dump: &Dump) -> Value {
    let buffers = (0..dump.count()).map(|index| buffer_object(dump, index));
    let magazines = dump.magazines.iter().map(|word| Value::from(*word));
    let mut members = head(question, Value::Null);
    members.extend([
        ("order", Value::from(order_name(dump.order))),
        ("sheet", sheet_object(&dump.numbers)),
        ("magazines", Value::List(magazines.collect())),
        ("log_rows", number(dump.log.len() / 16)),
        ("sound", Value::Bool(dump.is_sound())),
        ("faults", number(dump.faults())),
        ("chain", chain_object(dump)),
        ("latest_at", Value::from(dump.asked_at())),
        ("buffers", Value::List(buffers.collect())),
    ]);
    object(members)
}

fn sheet_object(numbers: &Numbers) -> Value {
    object(vec![
        ("cache", Value::from(numbers.cache)),
        ("heap_base", Value::from(numbers.heap_base)),
        ("record_base", Value::from(numbers.record_base)),
        ("buffer_size", Value::from(numbers.buffer_size)),
        ("chunk_size", Value::from(numbers.chunk_size)),
        ("count", Value::from(numbers.count)),
        ("head", Value::from(numbers.head)),
        ("flags", Value::from(numbers.flags)),
    ])
}

fn chain_object(dump: &Dump) -> Value {
    let met = &dump.chain.met;
    let (ending, again) = match dump.chain.ending {
        Ending::End => ("end", Value::Null),
        Ending::Broken => ("broken", Value::Null),
        Ending::Again(record) => ("again", number(record)),
    };
    let buffers = met.iter().map(|record| match dump.named_buffer(*record) {
        Some(buffer) => number(buffer),
        None => Value::Null,
    });
    object(vec![
        ("met", number(met.len())),
        ("ending", Value::from(ending)),
        ("again", again),
        ("records", numbers(met.iter().copied())),
        ("buffers", Value::List(buffers.collect())),
    ])
}

fn buffer_object(dump: &Dump, index: usize) -> Value {
    let verdict = dump.verdicts[index];
    let row = table::verdict(verdict.number());
    let (size, offset) = match verdict {
        Verdict::Allocated(size) => (Some(size), None),
        Verdict::FillDiffers(offset)
        | Verdict::RedzoneDiffers(offset)
        | Verdict::GuardDiffers(offset) => (None, Some(offset)),
        _ => (None, None),
    };
    let address = dump.buffer_address(index);
    object(vec![
        ("index", number(index)),
        ("address", Value::from(address)),
        ("verdict", Value::from(verdict.number())),
        ("name", Value::from(&row.name[..])),
        ("words", Value::from(&row.words[..])),
        ("fault", Value::Bool(verdict.number() >= 20)),
        ("size", perhaps(size)),
        ("offset", perhaps(offset)),
        ("hurt", perhaps(offset.map(|offset| address + offset))),
        (
            "place",
            perhaps(dump.place(index).map(|place| place as u32)),
        ),
        ("listed", number(dump.listed(index))),
        ("latest", latest_object(&dump.latest(index))),
    ])
}

fn latest_object(latest: &Result<Transaction, Refusal>) -> Value {
    let found = match latest {
        Ok(found) => found,
        Err(refusal) => return object(vec![("refused", refusal_object(*refusal))]),
    };
    let (place, index, kind) = match found.place {
        Place::Record(record) => ("record", record, None),
        Place::Row(row, kind) => ("row", row, Some(kind)),
    };
    object(vec![
        ("refused", Value::Null),
        ("place", Value::from(place)),
        ("index", number(index)),
        ("thread", Value::from(found.thread)),
        ("uptime", Value::from(found.uptime)),
        ("age", perhaps(found.age)),
        ("kind", perhaps(kind)),
    ])
}
