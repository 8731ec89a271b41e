//! The reports of the samples, which are stored to be read: `samples/desk/NAME.report` is what
//! the command has to print for the sample of that name.
//!
//! After a change of the samples or of the form they are written anew with
//! `cargo test --release --offline -p desk --test desk -- --ignored write_reports`.

use std::fs;
use std::path::{Path, PathBuf};

use differential::samples::from_hex;
use differential::Sequence;
use reference::Profile;

use crate::expected::{open, report_text};
use crate::question::{ask, Question};
use crate::report::compare;

const SEED: u64 = 0x3300_51aa;

fn folder() -> PathBuf {
    Path::new(env!("CARGO_MANIFEST_DIR")).join("../../samples")
}

fn stored(name: &str) -> PathBuf {
    folder().join("desk").join(name).with_extension("report")
}

/// The names of the files in a folder with this ending, without it.
fn names(folder: &Path, ending: &str) -> Vec<String> {
    let files = fs::read_dir(folder).expect("a folder of the repository");
    let files = files.map(|file| file.expect("a file").path());
    let files = files.filter(|file| file.extension().is_some_and(|found| found == ending));
    let names = files.map(|file| {
        file.file_stem()
            .map(|name| name.to_string_lossy().into_owned())
    });
    let mut names: Vec<String> = names.flatten().collect();
    names.sort();
    names
}

fn sample(name: &str, ending: &str) -> Vec<u8> {
    let file = folder().join(name).with_extension(ending);
    fs::read(file).expect("a sample")
}

/// What is asked of a sample. Those of libumem's buffers are userland's.
fn question(name: &str, input: Vec<u8>) -> Question {
    let profile = match name.starts_with("umem") {
        true => Profile::Userland,
        false => Profile::Kernel,
    };
    Question::plain(profile, input)
}

/// Every sample, by its name.
fn samples() -> Vec<(String, Question)> {
    let mut samples = Vec::new();
    for name in names(&folder(), "image") {
        let input = sample(&name, "image");
        samples.push((name.clone(), question(&name, input)));
    }
    for name in names(&folder(), "hex") {
        let input = from_hex(&String::from_utf8_lossy(&sample(&name, "hex")));
        samples.push((name.clone(), question(&name, input)));
    }
    samples
}

fn expected(name: &str, question: &Question) -> String {
    let dump = open(question);
    report_text(&dump.unwrap_or_else(|why| panic!("{name} is refused: {why:?}")))
}

#[test]
fn stored_reports() {
    let mut sequence = Sequence::new(SEED);
    for (name, question) in samples() {
        let text = fs::read_to_string(stored(&name));
        let text = text.unwrap_or_else(|why| panic!("the report of {name}: {why}"));
        assert_eq!(text, expected(&name, &question), "{name}");
        let ran = ask(&question, &["report"], "stored_reports", &mut sequence);
        assert_eq!(ran.stdout_text(), text, "{name}");
        compare(&question, &ran, report_text, &name);
    }
}

/// Each sample has a stored report, and each stored report a sample.
#[test]
fn stored_reports_are_of_samples() {
    let mut wanted: Vec<String> = samples().into_iter().map(|(name, _)| name).collect();
    wanted.sort();
    assert_eq!(names(&folder().join("desk"), "report"), wanted);
    for name in [
        "dump",
        "corrupt",
        "hurt",
        "hurt_low",
        "codes",
        "umem_overrun",
    ] {
        assert!(wanted.contains(&String::from(name)), "{name}");
    }
}

/// What the README says of the hurt sample: which thread, and how long ago.
#[test]
fn latest_as_in_the_readme() {
    let mut sequence = Sequence::new(SEED);
    for name in ["hurt", "hurt_low"] {
        let input = from_hex(&String::from_utf8_lossy(&sample(name, "hex")));
        let mut question = Question::plain(Profile::Kernel, input);
        question.now = Some(7000);
        let ran = ask(
            &question,
            &["report"],
            "latest_as_in_the_readme",
            &mut sequence,
        );
        let text = ran.stdout_text();
        let latest = text.lines().filter(|line| line.starts_with("  latest "));
        let wanted = [
            "  latest     thread 0x40, uptime 5000 ms, 2000 ms ago, record 0",
            "  latest     thread 0x41, uptime 6000 ms, 1000 ms ago, free, row 1",
        ];
        assert_eq!(latest.collect::<Vec<_>>(), wanted, "{name}");
        assert!(!text.contains("--now"), "{name}");
    }
}

/// Writes all of them anew, from the second program.
#[test]
#[ignore = "writes the stored reports"]
fn write_reports() {
    fs::create_dir_all(folder().join("desk")).expect("a folder can be made");
    for (name, question) in samples() {
        let text = expected(&name, &question);
        fs::write(stored(&name), text).expect("a report can be written");
    }
}
