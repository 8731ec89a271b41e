//! The picture is well-formed, and has a cell for each buffer that says what is found.

use std::path::Path;

use differential::{Form, Image, Sequence, Shape, PROFILES};

use super::xml::{parse, Element};
use crate::cases::draw_crowd;
use crate::counts::{profile_name, Counts, PROFILES as PROFILE_NAMES};
use crate::expected::{cell, map_text, open, transaction_text, Dump, NO_NOW};
use crate::question::{ask, scratch, Question};
use crate::table;

const CASES: u64 = 60;
const SEED: u64 = 0x5a90_1bc3;

/// Without it a browser takes the file for any XML.
const NAMESPACE: &str = "http://www.w3.org/2000/svg";

/// The groups of buffers, by their titles: a title of the whole picture stands in no group.
fn groups(root: &Element) -> Vec<(&Element, String)> {
    let mut groups = Vec::new();
    for group in root.all().into_iter().filter(|element| element.name == "g") {
        let titles = group.elements().filter(|element| element.name == "title");
        let titles: Vec<String> = titles.map(Element::text).collect();
        assert!(titles.len() < 2, "a group with two titles: {titles:?}");
        groups.extend(titles.into_iter().map(|title| (group, title)));
    }
    groups
}

/// The texts that are drawn in a group, one behind the other with spaces between.
fn drawn_texts(group: &Element) -> String {
    let texts = group
        .all()
        .into_iter()
        .filter(|element| element.name == "text");
    let texts: Vec<String> = texts.map(Element::text).collect();
    texts.join(" ")
}

/// Whether a number stands in a text by itself.
fn has_number(text: &str, number: usize) -> bool {
    let number = number.to_string();
    let mut words = text.split(|sign: char| !sign.is_ascii_alphanumeric());
    words.any(|word| word == number)
}

/// What a browser shows of a buffer under the pointer.
fn assert_title(dump: &Dump, index: usize, title: &str) {
    let row = table::verdict(dump.verdicts[index].number());
    let address = format!("0x{:08x}", dump.buffer_address(index));
    let latest = match dump.latest(index) {
        Ok(found) => format!("{:#x}", found.thread),
        refused => transaction_text(&refused),
    };
    assert!(has_number(title, index), "{index} in {title:?}");
    for wanted in [&address, &row.words, &latest] {
        assert!(title.contains(wanted), "{wanted} in {title:?}");
    }
}

/// The picture of an image, as it is written to standard output.
fn assert_picture(dump: &Dump, text: &str) {
    let root = parse(text).unwrap_or_else(|why| panic!("{why}\n{text:.2000}"));
    assert_eq!(root.name, "svg");
    assert_eq!(
        root.attributes.get("xmlns").map(String::as_str),
        Some(NAMESPACE)
    );
    let groups = groups(&root);
    assert_eq!(groups.len(), dump.count(), "one title for each buffer");
    for (index, (group, title)) in groups.iter().enumerate() {
        assert_title(dump, index, title);
        let drawn = drawn_texts(group);
        assert!(has_number(&drawn, index), "{index} in {drawn:?}");
        let cell = cell(dump, index);
        let mut parts = cell.split('@');
        let sign = parts.next().unwrap_or_default();
        assert!(drawn.contains(sign), "{sign} in {drawn:?}");
        if let Some(place) = parts.next() {
            assert!(
                drawn.contains(&format!("@{place}")),
                "@{place} in {drawn:?}"
            );
        }
    }
    assert_legend(dump, &root);
    // Every title has a latest transaction, which without --now may be another.
    assert_eq!(root.text().contains(NO_NOW), dump.now.is_none());
}

/// The legend has the words of each verdict that is met, and how often it is.
fn assert_legend(dump: &Dump, root: &Element) {
    let whole = root.text();
    let map = map_text(dump);
    let legend = map.lines().skip_while(|line| !line.is_empty()).skip(1);
    for line in legend.take_while(|line| !line.starts_with(['@', 'c'])) {
        let (count, words) = line[5..]
            .trim_start()
            .split_once("  ")
            .expect("two columns");
        assert!(whole.contains(words), "{words} in the legend");
        assert!(
            has_number(&whole, count.parse().expect("a count")),
            "{line}"
        );
    }
}

/// Nothing is loaded from elsewhere, and nothing runs.
fn assert_harmless(root: &Element) {
    for element in root.all() {
        assert_ne!(element.name, "script");
        for (name, value) in &element.attributes {
            assert!(!name.starts_with("on"), "{name}");
            let is_namespace = name.starts_with("xmlns");
            assert!(is_namespace || !value.contains("//"), "{name}={value}");
        }
    }
}

/// Writes the picture to a file and to standard output, and compares the two.
fn compare(question: &Question, name: &str, sequence: &mut Sequence) {
    let dump = open(question).expect("an image that is not refused");
    let file = scratch(&format!("{name}.svg"));
    let _ = std::fs::remove_file(&file);
    let option = format!("--svg={}", file.display());
    let ran = ask(question, &["map", &option], name, sequence);
    assert_eq!((ran.stdout_text(), ran.stderr_text()), Default::default());
    assert_eq!(ran.status, Some(dump.status()));
    let written = read(&file);
    let ran = ask(question, &["map", "--svg=-"], name, sequence);
    assert_eq!(ran.stdout_text(), written);
    assert_eq!(ran.stderr_text(), "");
    assert_eq!(ran.status, Some(dump.status()));
    assert_picture(&dump, &written);
    assert_harmless(&parse(&written).expect("it was read before"));
}

fn read(file: &Path) -> String {
    std::fs::read_to_string(file).expect("the picture that was written")
}

#[test]
fn crowds_of_hurts() {
    let mut counts = Counts::default();
    for profile in PROFILES {
        for number in 0..CASES {
            let mut drawn = draw_crowd(profile, SEED, number);
            compare(&drawn.question, "crowds_of_hurts", &mut drawn.sequence);
            let dump = open(&drawn.question).expect("no refusal");
            for verdict in &dump.verdicts {
                let met = format!("verdict {}", verdict.number());
                counts.note(profile_name(profile), met);
            }
        }
    }
    counts.print("desk, pictures, crowds of hurts", SEED);
    let verdicts = table::verdicts().iter().filter(|row| row.number != 30);
    let verdicts: Vec<String> = verdicts
        .map(|row| format!("verdict {}", row.number))
        .collect();
    counts.want(&PROFILE_NAMES, &verdicts);
    counts.want(&["userland"], &["verdict 30"]);
}

/// One buffer, fewer and more than a line has, and as many as there can be.
#[test]
fn counts_of_buffers() {
    let mut sequence = Sequence::new(SEED);
    for form in [Form::Short, Form::UserLow] {
        for count in [1, 7, 8, 9, 15, 512] {
            let shape = Shape {
                cache: 0x70,
                heap_base: 0x1000_0000,
                record_base: 0x2000_0000,
                size: 16,
                count,
            };
            let mut image = Image::laid_out(form, shape, [0; 5]);
            image.heap[3] ^= 0x40;
            let question = Question::plain(form.profile(), image.input());
            compare(&question, "counts_of_buffers", &mut sequence);
        }
    }
}

/// A file that is there already is replaced whole.
#[test]
fn replaced() {
    let mut drawn = draw_crowd(PROFILES[0], SEED, 0);
    let file = scratch("replaced.svg");
    let option = format!("--svg={}", file.display());
    std::fs::write(&file, "x".repeat(3_000_000)).expect("a file can be written");
    ask(
        &drawn.question,
        &["map", &option],
        "replaced",
        &mut drawn.sequence,
    );
    let ran = ask(
        &drawn.question,
        &["map", "--svg=-"],
        "replaced",
        &mut drawn.sequence,
    );
    assert_eq!(read(&file), ran.stdout_text());
}
