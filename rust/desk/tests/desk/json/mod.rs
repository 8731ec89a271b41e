//! JSON as `json` writes it: values, a strict reading of them, and the command compared.

mod compared;
mod parse;
mod worked;

use std::collections::BTreeMap;

pub use parse::parse;

/// A value. Every number that the command writes is a whole one and not negative.
#[derive(Clone, PartialEq, Eq, Debug)]
pub enum Value {
    Null,
    Bool(bool),
    Number(u64),
    Text(String),
    List(Vec<Value>),
    Object(BTreeMap<String, Value>),
}

impl From<u32> for Value {
    fn from(number: u32) -> Value {
        Value::Number(u64::from(number))
    }
}

impl From<&str> for Value {
    fn from(text: &str) -> Value {
        Value::Text(String::from(text))
    }
}

/// An object of these members.
pub fn object(members: Vec<(&str, Value)>) -> Value {
    let members = members.into_iter();
    let members = members.map(|(name, value)| (String::from(name), value));
    Value::Object(members.collect())
}

/// Where two values first differ, by the names and places that lead there, and how.
pub fn difference(found: &Value, expected: &Value) -> Option<String> {
    match (found, expected) {
        (Value::Object(found), Value::Object(expected)) => difference_of_objects(found, expected),
        (Value::List(found), Value::List(expected)) if found.len() == expected.len() => {
            let mut pairs = found.iter().zip(expected).enumerate();
            pairs.find_map(|(place, (found, expected))| {
                let inside = difference(found, expected)?;
                Some(format!("[{place}]{inside}"))
            })
        }
        _ if found == expected => None,
        _ => Some(format!(": {found:?} and not {expected:?}")),
    }
}

/// A name that only one of them has is a difference too.
fn difference_of_objects(
    found: &BTreeMap<String, Value>,
    expected: &BTreeMap<String, Value>,
) -> Option<String> {
    let names = found.keys().chain(expected.keys());
    let mut pairs = names.map(|name| (name, found.get(name), expected.get(name)));
    pairs.find_map(|(name, found, expected)| match (found, expected) {
        (Some(found), Some(expected)) => {
            let inside = difference(found, expected)?;
            Some(format!(".{name}{inside}"))
        }
        (Some(_), None) => Some(format!(".{name}: is not to be there")),
        (None, _) => Some(format!(".{name}: is missing")),
    })
}
