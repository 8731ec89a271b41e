//! The tables of words are those of the README, and their names those of the header.

use combgallop::{Meaning, BROKEN_HEAD, REFUSALS, VERDICTS};

const README: &str = include_str!("../../../README.md");
const HEADER: &str = include_str!("../../../include/combgallop.h");

/// The rows of the README's table under a heading, without the two rows of its head.
fn table(heading: &str) -> Vec<Vec<&'static str>> {
    let (_, text) = README.split_once(heading).expect("the heading");
    let lines = text.lines().skip_while(|line| !line.starts_with('|'));
    let lines = lines.take_while(|line| line.starts_with('|')).skip(2);
    lines
        .map(|line| line.trim_matches('|').split('|').map(str::trim).collect())
        .collect()
}

fn quoted(name: &str) -> String {
    format!("`{name}`")
}

#[test]
fn verdicts_of_the_readme() {
    let rows = VERDICTS.map(|row| {
        let Meaning { number, words, .. } = row;
        let name = quoted(row.name);
        [
            number.to_string(),
            name,
            words.into(),
            row.with.into(),
            row.look.into(),
        ]
    });
    assert_eq!(table("\n### Verdicts\n"), rows);
}

/// Refusal 7 has two rows, the second for its detail 29.
#[test]
fn refusals_of_the_readme() {
    let mut rows = Vec::new();
    for row in REFUSALS {
        rows.push([row.number.to_string(), quoted(row.name), row.words.into()]);
        if row.number == 7 {
            let number = format!("7, detail {}", BROKEN_HEAD.number);
            rows.push([number, quoted(BROKEN_HEAD.name), BROKEN_HEAD.words.into()]);
        }
    }
    assert_eq!(table("\n### Refusals\n"), rows);
}

#[test]
fn names_of_the_header() {
    let tables = VERDICTS.iter().chain(&REFUSALS).chain([&BROKEN_HEAD]);
    for Meaning { number, name, .. } in tables {
        let constant = format!(" CG_{} = {number}", name.to_uppercase());
        let mut after = HEADER.split(&constant).skip(1);
        let rest = after.next().expect(&constant);
        assert!(rest.starts_with([',', ' ', '\n']), "{constant}");
    }
}
