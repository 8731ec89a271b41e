//! Everything that is found, as one JSON object. `docs/DESK.md` has its names.

use combgallop::{Chain, Ending, Latest, Order, Profile, Refusal, Sheet, REFUSALS};

use crate::arguments::Reading;
use crate::found::{Buffer, Found};

/// The version of the names.
const VERSION: u32 = 1;

/// The object of an image that is refused.
pub fn refused(reading: &Reading, refusal: Refusal) -> String {
    let mut members = start(reading.profile, reading.now);
    members.push(member("refused", refusal_object(refusal)));
    top(&members)
}

pub fn text(found: &Found) -> String {
    let image = found.image;
    let mut members = start(image.profile(), found.now);
    let order = match image.order() {
        Order::HighFirst => "high_first",
        Order::LowFirst => "low_first",
    };
    let buffers = found
        .buffers
        .iter()
        .map(|buffer| buffer_object(found, buffer));
    members.extend([
        member("refused", null()),
        member("order", string(order)),
        member("sheet", sheet_object(image.sheet())),
        member("magazines", array(image.magazines())),
        member("log_rows", image.log_rows()),
        member("sound", found.is_sound()),
        member("faults", found.faults().count()),
        member("chain", chain_object(found)),
        member("latest_at", found.latest_at()),
        member("buffers", lines(buffers.collect())),
    ]);
    top(&members)
}

fn start(profile: Profile, now: Option<u32>) -> Vec<String> {
    let profile = match profile {
        Profile::Kernel => "kernel",
        Profile::Userland => "userland",
    };
    vec![
        member("combgallop", VERSION),
        member("profile", string(profile)),
        member("now", optional(now)),
    ]
}

fn sheet_object(sheet: Sheet) -> String {
    object(&[
        member("cache", sheet.cache),
        member("heap_base", sheet.heap_base),
        member("record_base", sheet.record_base),
        member("buffer_size", sheet.buffer_size),
        member("chunk_size", sheet.chunk_size),
        member("count", sheet.count),
        member("head", sheet.head),
        member("flags", sheet.flags),
    ])
}

fn chain_object(found: &Found) -> String {
    let Chain { met, ending } = found.chain;
    let (ending, again) = match ending {
        Ending::End => ("end", None),
        Ending::Broken => ("broken", None),
        Ending::Again(record) => ("again", Some(record)),
    };
    let buffers = found.met.iter().map(|record| found.named_by(*record));
    let buffers: Vec<String> = buffers.map(optional).collect();
    object(&[
        member("met", met),
        member("ending", string(ending)),
        member("again", optional(again)),
        member("records", array(&found.met)),
        member("buffers", array(&buffers)),
    ])
}

fn buffer_object(found: &Found, buffer: &Buffer) -> String {
    let verdict = buffer.verdict;
    let meaning = verdict.meaning();
    object(&[
        member("index", buffer.index),
        member("address", buffer.address),
        member("verdict", meaning.number),
        member("name", string(meaning.name)),
        member("words", string(meaning.words)),
        member("fault", verdict.is_fault()),
        member("size", optional(verdict.size())),
        member("offset", optional(verdict.offset())),
        member("hurt", optional(buffer.hurt())),
        member("place", optional(buffer.place)),
        member("listed", buffer.listed),
        member("latest", latest_object(found, buffer)),
    ])
}

fn latest_object(found: &Found, buffer: &Buffer) -> String {
    let latest = match found.latest(buffer.index) {
        Ok(latest) => latest,
        Err(refusal) => return object(&[member("refused", refusal_object(refusal))]),
    };
    let (place, index) = match latest.place {
        Latest::Record(index) => ("record", index),
        Latest::Row(index) => ("row", index),
    };
    let age = found.now.map(|now| latest.age(now));
    object(&[
        member("refused", null()),
        member("place", string(place)),
        member("index", index),
        member("thread", latest.thread),
        member("uptime", latest.uptime),
        member("age", optional(age)),
        member("kind", optional(latest.kind)),
    ])
}

/// By the table of refusals: that of damage too, whose detail is a number of its own.
fn refusal_object(refusal: Refusal) -> String {
    let number = refusal.number();
    let rows = REFUSALS.iter().filter(|meaning| meaning.number == number);
    let words = rows.flat_map(|meaning| {
        [
            member("name", string(meaning.name)),
            member("words", string(meaning.words)),
        ]
    });
    let mut members = vec![member("number", number)];
    members.extend(words);
    members.push(member("detail", refusal.detail()));
    object(&members)
}

fn member(name: &str, value: impl ToString) -> String {
    format!("{}: {}", string(name), value.to_string())
}

fn null() -> &'static str {
    "null"
}

fn optional(value: Option<impl ToString>) -> String {
    value.map_or_else(|| null().to_string(), |value| value.to_string())
}

/// A string in quotes. Signs that would end it, or that have no sign of their own, are written
/// by their numbers.
fn string(text: &str) -> String {
    let mut quoted = String::from("\"");
    for sign in text.chars() {
        match sign {
            '"' | '\\' => quoted.extend(['\\', sign]),
            _ if sign.is_control() => quoted += &format!("\\u{:04x}", u32::from(sign)),
            _ => quoted.push(sign),
        }
    }
    quoted + "\""
}

fn array(values: &[impl ToString]) -> String {
    let values: Vec<String> = values.iter().map(ToString::to_string).collect();
    format!("[{}]", values.join(", "))
}

fn object(members: &[String]) -> String {
    format!("{{{}}}", members.join(", "))
}

/// An array with a line for each value.
fn lines(values: Vec<String>) -> String {
    format!("[\n    {}\n  ]", values.join(",\n    "))
}

/// The whole object, with a line for each member.
fn top(members: &[String]) -> String {
    format!("{{\n  {}\n}}\n", members.join(",\n  "))
}

#[cfg(test)]
mod tests {
    use super::string;

    #[test]
    fn strings() {
        assert_eq!(string("the buffer's"), "\"the buffer's\"");
        assert_eq!(string("a \"b\" \\ \n"), "\"a \\\"b\\\" \\\\ \\u000a\"");
    }
}
