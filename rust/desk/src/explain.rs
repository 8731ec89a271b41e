//! A number in words.

use combgallop::{Meaning, BROKEN_HEAD, REFUSALS, VERDICTS};

use crate::failure::Failure;

/// What a number means as a verdict, as a refusal and as a refusal's detail.
pub fn text(number: u32) -> Result<String, Failure> {
    let mut text = String::new();
    if let Some(meaning) = find(&VERDICTS, number) {
        text += &verdict(meaning);
    }
    if let Some(meaning) = find(&REFUSALS, number) {
        text += &format!("refusal {number}, {}: {}\n", meaning.name, meaning.words);
    }
    if u32::from(BROKEN_HEAD.number) == number {
        let Meaning { name, words, .. } = BROKEN_HEAD;
        text += &format!("refusal 7 with detail {number}, {name}: {words}\n");
    }
    if text.is_empty() {
        let what = format!("{number} is the number of no verdict and no refusal");
        return Err(Failure::Wrong(what));
    }
    Ok(text)
}

fn find(table: &'static [Meaning], number: u32) -> Option<&'static Meaning> {
    Meaning::find(table, u8::try_from(number).ok()?)
}

fn verdict(meaning: &Meaning) -> String {
    let Meaning {
        number,
        name,
        words,
        with,
        look,
    } = meaning;
    let mut text = format!("verdict {number}, {name}: {words}\n");
    if !with.is_empty() {
        text += &format!("  with {with}\n");
    }
    if !look.is_empty() {
        text += &format!("  look first at {look}\n");
    }
    text
}
