//! The tables of the README: the words that the command prints.

use std::sync::LazyLock;

const README: &str = include_str!("../../../../README.md");

/// A row of the table "Verdicts". The last two may be empty.
#[derive(Debug)]
pub struct VerdictRow {
    pub number: u32,
    pub name: String,
    pub words: String,
    pub with: String,
    pub look: String,
}

/// A row of the table "Refusals". The detail is 0 but for that of the broken head.
#[derive(Debug)]
pub struct RefusalRow {
    pub number: u32,
    pub detail: u32,
    pub name: String,
    pub words: String,
}

static VERDICTS: LazyLock<Vec<VerdictRow>> = LazyLock::new(|| {
    let rows = rows_of("### Verdicts");
    rows.into_iter().map(verdict_row).collect()
});

static REFUSALS: LazyLock<Vec<RefusalRow>> = LazyLock::new(|| {
    let rows = rows_of("### Refusals");
    rows.into_iter().map(refusal_row).collect()
});

/// The rows of the first table behind a heading, without its head and the line below that;
/// backticks are not part of a name.
fn rows_of(heading: &str) -> Vec<Vec<String>> {
    let lines = README.lines().skip_while(|line| *line != heading);
    let rows = lines.skip_while(|line| !line.starts_with('|'));
    let rows = rows.take_while(|line| line.starts_with('|')).skip(2);
    rows.map(cells).collect()
}

fn cells(line: &str) -> Vec<String> {
    let inside = line.trim().trim_start_matches('|');
    let inside = inside.strip_suffix('|').expect("a row ends with |");
    let cells = inside.split('|');
    cells.map(|cell| cell.trim().replace('`', "")).collect()
}

fn verdict_row(cells: Vec<String>) -> VerdictRow {
    let [number, name, words, with, look] = cells.try_into().expect("five columns");
    VerdictRow {
        number: number.parse().expect("a verdict's number"),
        name,
        words,
        with,
        look,
    }
}

fn refusal_row(cells: Vec<String>) -> RefusalRow {
    let [number, name, words] = cells.try_into().expect("three columns");
    let (number, detail) = number.split_once(", detail ").unwrap_or((&number, "0"));
    RefusalRow {
        number: number.parse().expect("a refusal's number"),
        detail: detail.parse().expect("a refusal's detail"),
        name,
        words,
    }
}

pub fn verdicts() -> &'static [VerdictRow] {
    &VERDICTS
}

pub fn refusals() -> &'static [RefusalRow] {
    &REFUSALS
}

pub fn verdict(number: u32) -> &'static VerdictRow {
    let row = VERDICTS.iter().find(|row| row.number == number);
    row.expect("every verdict stands in the table")
}

/// The row of a refusal by its number, whatever its detail is: 29 is no detail that reading
/// gives.
pub fn refusal(number: u8) -> &'static RefusalRow {
    let number = u32::from(number);
    let mut rows = REFUSALS.iter();
    let row = rows.find(|row| row.number == number && row.detail == 0);
    row.expect("every refusal stands in the table")
}

/// The tables are found, and none of their rows is lost.
#[test]
fn tables_are_whole() {
    let numbers: Vec<u32> = verdicts().iter().map(|row| row.number).collect();
    let wanted = [0, 1, 2, 3, 20, 21, 22, 23, 24, 25, 26, 27, 28, 30, 31, 32];
    assert_eq!(numbers, wanted);
    let numbers = refusals().iter().map(|row| (row.number, row.detail));
    let mut wanted: Vec<(u32, u32)> = (1..=13).map(|number| (number, 0)).collect();
    wanted.insert(7, (7, 29));
    assert_eq!(numbers.collect::<Vec<_>>(), wanted);
    assert!(verdicts().iter().all(|row| !row.words.is_empty()));
    let faults = verdicts().iter().filter(|row| row.number >= 20);
    assert!(faults.clone().all(|row| !row.look.is_empty()));
}
