//! What the documents show is what the command prints.

use std::fs;
use std::path::{Path, PathBuf};

use differential::samples::from_hex;

use crate::run::{run, run_fed};

fn repository() -> PathBuf {
    Path::new(env!("CARGO_MANIFEST_DIR")).join("../..")
}

fn document(name: &str) -> String {
    fs::read_to_string(repository().join(name)).expect("a document")
}

/// The lines of the first indented block in which a line has this start, without the
/// indentation.
fn block(document: &str, start: &str) -> String {
    let indented = format!("    {start}");
    let lines: Vec<&str> = document.lines().collect();
    let at = lines.iter().position(|line| line.starts_with(&indented));
    let rest = &lines[at.expect(start)..];
    let is_inside = |line: &&&str| line.is_empty() || line.starts_with("    ");
    let block = rest.iter().take_while(is_inside);
    let block: Vec<&str> = block
        .map(|line| line.get(4..).unwrap_or_default())
        .collect();
    format!("{}\n", block.join("\n").trim_end())
}

fn sample(name: &str) -> String {
    repository()
        .join("samples")
        .join(name)
        .display()
        .to_string()
}

#[test]
fn part_of_the_readme() {
    let image = sample("relay.image");
    let ran = run(&["report", &image, "--now", "95000"]);
    let shown = block(&document("README.md"), "buffer 5 at ");
    assert!(
        ran.stdout_text().contains(&format!("\n{shown}\n")),
        "{shown}"
    );
    assert_eq!(ran.status, Some(1));
}

/// The bytes that the README finds in the tag of the left neighbour.
#[test]
fn tag_in_the_readme() {
    let ran = run(&["report", &sample("relay.image")]);
    let tag = "  tag        T0 0x30313233, T1 0x34353637, T0 xor T1 0x04040404\n";
    assert!(ran.stdout_text().contains(tag));
    assert!(document("README.md").contains("34 35 36 37"));
}

#[test]
fn picture_of_the_readme() {
    let image = sample("relay.image");
    let ran = run(&["map", &image, "--now", "95000", "--svg", "-"]);
    assert_eq!(ran.stdout_text(), document("docs/map.svg"));
}

#[test]
fn report_of_the_manual() {
    let hex = document("samples/hurt.hex");
    let ran = run_fed(&["report", "-", "--now", "7000"], from_hex(&hex));
    let shown = block(&document("docs/DESK.md"), "heap report 1");
    let text = ran.stdout_text();
    assert!(text.starts_with(&format!("{shown}\n")), "{text}");
}

#[test]
fn map_of_the_manual() {
    let ran = run(&["map", &sample("relay.image")]);
    assert_eq!(
        ran.stdout_text(),
        block(&document("docs/DESK.md"), "15 buffers")
    );
}
