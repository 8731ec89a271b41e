//! The verified report program and the reference's write the same, byte for byte, in
//! every form of the sheet. Both know the kernel profile alone, and read every image by it.

use std::collections::BTreeMap;
use std::fs;
use std::io::Write;
use std::path::{Path, PathBuf};
use std::process::{Child, ChildStdin, Command, Stdio};
use std::thread;
use std::time::{Duration, Instant};

use differential::samples::dump;
use differential::{put_sheet_word, Case, Form, FORMS, KERNEL_FORMS, PROFILES};

const CASES: u64 = 1_000;
const SEED: u64 = 0x58f0_21b7;

/// Far longer than either program takes.
const PATIENCE: Duration = Duration::from_secs(20);

/// Where the body of the heap base stands in a sheet.
const HEAP_BASE_BODY: usize = 10;

fn repository() -> PathBuf {
    Path::new(env!("CARGO_MANIFEST_DIR")).join("../..")
}

fn verified_program() -> PathBuf {
    let program = repository().join("target/bin/heap_report");
    let place = program.display();
    assert!(
        program.is_file(),
        "{place} is missing: run `tools/build` first"
    );
    program
}

fn reference_program() -> PathBuf {
    PathBuf::from(env!("CARGO_BIN_EXE_reference_report"))
}

/// Waits for a program, and fails where it doesn't end in good time.
fn wait(mut child: Child) -> Vec<u8> {
    let started = Instant::now();
    while child
        .try_wait()
        .expect("the program can be waited for")
        .is_none()
    {
        if started.elapsed() > PATIENCE {
            child.kill().expect("the program can be stopped");
            panic!("the program did not end");
        }
        thread::sleep(Duration::from_micros(200));
    }
    let output = child.wait_with_output().expect("the program's output");
    assert!(output.status.success(), "{}", output.status);
    output.stdout
}

/// What a program writes when `feed` writes to it, in a thread of its own, so that a
/// program that stops reading stops nobody else. The longest report fits a pipe.
fn written(program: &Path, feed: impl FnOnce(ChildStdin) + Send + 'static) -> Vec<u8> {
    let mut child = Command::new(program)
        .stdin(Stdio::piped())
        .stdout(Stdio::piped())
        .spawn()
        .expect("the program starts");
    let pipe = child.stdin.take().expect("the program's input");
    let feeder = thread::spawn(move || feed(pipe));
    let output = wait(child);
    feeder.join().expect("the input ends when the program does");
    output
}

/// Both programs are fed alike, and write alike.
fn compare(feed: impl FnOnce(ChildStdin) + Clone + Send + 'static, story: &str) -> String {
    let found = written(&verified_program(), feed.clone());
    let expected = written(&reference_program(), feed);
    let found = String::from_utf8_lossy(&found).into_owned();
    assert_eq!(found, String::from_utf8_lossy(&expected), "{story}");
    found
}

/// Both programs on one whole input. A program may end before it has read it all.
fn compare_input(input: Vec<u8>, story: &str) -> String {
    let feed = move |mut pipe: ChildStdin| {
        let _ = pipe.write_all(&input);
    };
    compare(feed, story)
}

#[test]
fn stored_images() {
    let samples = repository().join("samples");
    for (name, expected) in [
        ("dump", "dump"),
        ("dump_low", "dump"),
        ("corrupt", "corrupt"),
        ("relay", "relay"),
    ] {
        let image = fs::read(samples.join(name).with_extension("image"));
        let text = fs::read_to_string(samples.join(expected).with_extension("expected"));
        let found = compare_input(image.expect("the stored image"), name);
        assert_eq!(found, text.expect("the stored report"), "{name}");
    }
}

/// The dump's report, all 64 bytes.
const DUMP_REPORT: &str = include_str!("../../../samples/dump.expected");

/// The dump with a log of two rows, cut at every place: nothing, the length byte alone, a
/// part of the sheet, the sheet alone, a part of each area, and a part of a row. "Input
/// that ends early makes the sheet (1) or an area (3) wrong."
#[test]
fn dump_cut_at_every_place() {
    for form in KERNEL_FORMS {
        let mut image = dump(form);
        image.log = vec![1; 32];
        let input = image.input();
        let sheet_end = 1 + image.sheet.len();
        let records_end = sheet_end + image.heap.len() + image.records.len();
        for length in 0..=input.len() {
            let story = format!("{form:?} dump, the first {length} bytes");
            let found = compare_input(input[..length].to_vec(), &story);
            let is_whole = length >= records_end && (length - records_end).is_multiple_of(16);
            let expected = match length {
                _ if length < sheet_end => "refused 1\n",
                _ if is_whole => DUMP_REPORT,
                _ => "refused 3\n",
            };
            assert_eq!(found, expected, "{story}");
        }
    }
}

/// Every length byte, before the dump in each form and with nothing behind it. Only two
/// are a form's, and what follows them has to be that form.
#[test]
fn every_length_byte() {
    for byte in 0..=255 {
        let story = format!("length byte {byte} alone");
        assert_eq!(compare_input(vec![byte], &story), "refused 1\n", "{story}");
        for form in KERNEL_FORMS {
            let mut input = dump(form).input();
            input.resize(input.len() + 256, 0);
            input[0] = byte;
            let story = format!("length byte {byte}, {form:?} dump");
            let found = compare_input(input, &story);
            let is_its_own = usize::from(byte) == form.sheet_length();
            match byte {
                _ if is_its_own => assert_eq!(found, DUMP_REPORT, "{story}"),
                // The ninth field is taken for the start of the heap.
                48 => assert_eq!(found, "refused 3\n", "{story}"),
                _ => assert_eq!(found, "refused 1\n", "{story}"),
            }
        }
    }
}

#[test]
fn logs_of_every_kind_of_length() {
    for form in KERNEL_FORMS {
        for length in [
            0, 1, 15, 16, 17, 16_368, 16_383, 16_384, 16_385, 16_400, 40_000,
        ] {
            let mut image = dump(form);
            image.log = vec![7; length];
            let story = format!("{form:?} dump, a log of {length} bytes");
            let found = compare_input(image.input(), &story);
            let is_log = length.is_multiple_of(16) && length <= 16_384;
            let expected = if is_log { DUMP_REPORT } else { "refused 3\n" };
            assert_eq!(found, expected, "{story}");
        }
    }
}

/// Those of the userland profile too: what their records are longer by is taken for the
/// start of the log.
#[test]
fn hurt_images() {
    let mut counts: BTreeMap<(String, Form), usize> = BTreeMap::new();
    for profile in PROFILES {
        for number in 0..CASES {
            let (case, _) = Case::new(profile, SEED, number);
            let text = compare_input(case.image.input(), &case.to_string());
            let first_line = text.lines().next().expect("a line");
            let met = (String::from(first_line), case.image.read_form());
            *counts.entry(met).or_default() += 1;
        }
    }
    println!("programs, hurt images, seed {SEED:#x}");
    for ((line, form), count) in &counts {
        println!("  {line}, {form:?}: {count}");
    }
    for line in ["heap report 1", "refused 1", "refused 2", "refused 3"] {
        for form in FORMS {
            let is_met = counts.contains_key(&(String::from(line), form));
            assert!(is_met, "{line} was never met, {form:?}");
        }
    }
}

/// A pipe hands over what it has, so a program must ask again for the rest.
#[test]
fn input_in_small_pieces() {
    for form in KERNEL_FORMS {
        let mut image = dump(form);
        image.log = vec![3; 48];
        let input = image.input();
        for length in [1, 3, 47, 100] {
            let input = input.clone();
            let feed = move |mut pipe: ChildStdin| {
                for piece in input.chunks(length) {
                    let _ = pipe.write_all(piece);
                    thread::yield_now();
                }
            };
            let story = format!("{form:?} dump, pieces of {length} bytes");
            assert_eq!(compare(feed, &story), DUMP_REPORT, "{story}");
        }
    }
}

/// Input without end is not read to its end: after a length that is no form's, in a sheet
/// that is none, after an unlawful sheet, and in a log.
#[test]
fn endless_input() {
    compare_endless(Vec::new(), "refused 1\n");
    compare_endless(vec![255], "refused 1\n");
    for form in KERNEL_FORMS {
        let sheet_length = vec![form.sheet_length() as u8];
        let sheet = dump(form).sheet;
        let mut unlawful = sheet.clone();
        put_sheet_word(&mut unlawful, HEAP_BASE_BODY, 0);
        compare_endless(sheet_length.clone(), "refused 1\n");
        compare_endless([&sheet_length[..], &unlawful].concat(), "refused 2\n");
        compare_endless([&sheet_length[..], &sheet].concat(), "refused 3\n");
        compare_endless(dump(form).input(), "refused 3\n");
    }
}

/// Zeros without end, behind such a start.
fn compare_endless(start: Vec<u8>, expected: &str) {
    let feed = move |mut pipe: ChildStdin| {
        let mut is_open = pipe.write_all(&start).is_ok();
        while is_open {
            is_open = pipe.write_all(&[0; 4096]).is_ok();
        }
    };
    assert_eq!(compare(feed, "endless input"), expected);
}
