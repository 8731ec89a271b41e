//! The stored images are the ones that `make_images` and `store_images` make, and the
//! stored texts are what the reference answers to them.

use std::fs;
use std::path::Path;

use differential::samples::{from_hex, stored_samples};
use differential::stored;
use reference::program;

/// A file of the repository.
fn stored(name: &str) -> Vec<u8> {
    let repository = Path::new(env!("CARGO_MANIFEST_DIR")).join("../..");
    fs::read(repository.join(name)).expect("a stored file")
}

fn sample(name: &str) -> Vec<u8> {
    stored(&format!("samples/{name}"))
}

#[test]
fn stored_images() {
    for (name, image) in stored_samples() {
        assert_eq!(sample(&format!("{name}.image")), image.input(), "{name}");
    }
}

/// The low-first dump has the dump's report.
#[test]
fn reports_of_the_images() {
    for (name, expected) in [
        ("dump", "dump"),
        ("dump_low", "dump"),
        ("corrupt", "corrupt"),
        ("relay", "relay"),
    ] {
        let found = program(&sample(&format!("{name}.image")));
        assert_eq!(found, sample(&format!("{expected}.expected")), "{name}");
    }
}

/// So have the images in hexadecimal, two of them in both orders.
#[test]
fn reports_of_the_images_in_hexadecimal() {
    let samples = [
        ("one", "one"),
        ("low", "low"),
        ("low", "one"),
        ("hurt", "hurt"),
        ("hurt_low", "hurt"),
        ("codes", "codes"),
    ];
    for (name, expected) in samples {
        let text = sample(&format!("{name}.hex"));
        let found = program(&from_hex(&String::from_utf8_lossy(&text)));
        assert_eq!(found, sample(&format!("{expected}.expected")), "{name}");
    }
}

/// What the program over stored images reads, and is held to.
#[test]
fn images_of_the_program_over_stored_images() {
    assert_eq!(stored("crates/stored_images/stdin"), stored::input());
    assert_eq!(stored("crates/stored_images/stdout"), stored::text());
}

/// What the report program reads and is held to where it is built: the dump.
#[test]
fn image_of_the_report_program() {
    assert_eq!(stored("crates/heap_report/stdin"), sample("dump.image"));
    assert_eq!(stored("crates/heap_report/stdout"), sample("dump.expected"));
}
