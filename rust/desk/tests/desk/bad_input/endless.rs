//! Input without end: no more of it is read than an image can have.

use std::io::Write;
use std::process::ChildStdin;
use std::sync::atomic::{AtomicUsize, Ordering};
use std::sync::Arc;

use differential::samples::dump;
use differential::{put_sheet_word, Form};
use reference::{Profile, Refusal};

use super::{assert_wrong, sound_file, READERS};
use crate::json::Value;
use crate::question::refusal_line;
use crate::run::{command_in_little_memory, finish, Feed, Ran};

/// Where the body of the heap base stands in a sheet.
const HEAP_BASE_BODY: usize = 10;

/// A length byte, the longest sheet, heap, records and log.
const MOST_IMAGE: usize = 1 + 52 + 65_536 + 512 * 100 + 16_384;

/// What a pipe and the reading may hold beside that, written and not yet asked for.
const SLACK: usize = 200_000;

fn assert_refused(ran: &Ran, reader: &str, number: u8, story: &str) {
    let refusal = Refusal { number, detail: 0 };
    assert_eq!(ran.stderr_text(), refusal_line(refusal), "{story}");
    assert_eq!(ran.status, Some(2), "{story}");
    let text = ran.stdout_text();
    match reader {
        "json" => assert!(matches!(crate::json::parse(&text), Ok(Value::Object(_)))),
        _ => assert_eq!(text, "", "{story}"),
    }
}

#[test]
fn endless_file() {
    for reader in READERS {
        let command = command_in_little_memory(&[reader, "/dev/zero"]);
        assert_refused(&finish(command, None), reader, 1, reader);
    }
}

/// Zeros without end behind a start. The count is of what was taken.
fn endless(start: Vec<u8>, taken: Arc<AtomicUsize>) -> Feed {
    Box::new(move |mut pipe: ChildStdin| {
        let mut next = start;
        while pipe.write_all(&next).is_ok() {
            taken.fetch_add(next.len(), Ordering::Relaxed);
            next = vec![0; 4096];
        }
    })
}

fn assert_endless(form: Form, start: &[u8], number: u8) {
    for reader in READERS {
        let taken = Arc::new(AtomicUsize::new(0));
        let mut arguments = vec![reader, "-"];
        if form.profile() == Profile::Userland {
            arguments.push("--userland");
        }
        let command = command_in_little_memory(&arguments);
        let ran = finish(command, Some(endless(start.to_vec(), Arc::clone(&taken))));
        let story = format!("{form:?}, endless behind {} bytes", start.len());
        assert_refused(&ran, reader, number, &story);
        let taken = taken.load(Ordering::Relaxed);
        assert!(taken <= MOST_IMAGE + SLACK, "{taken} bytes, {story}");
    }
}

/// Behind nothing, a length that is no form's, a sheet that is none, an unlawful sheet, a sheet,
/// and a whole image.
#[test]
fn endless_pipe() {
    for form in [Form::Short, Form::Low, Form::UserHigh] {
        let length = vec![form.sheet_length() as u8];
        let sheet = dump(form).sheet;
        let mut unlawful = sheet.clone();
        put_sheet_word(&mut unlawful, HEAP_BASE_BODY, 0);
        assert_endless(form, &[], 1);
        assert_endless(form, &[255], 1);
        assert_endless(form, &length, 1);
        assert_endless(form, &[&length[..], &unlawful].concat(), 2);
        assert_endless(form, &[&length[..], &sheet].concat(), 3);
        assert_endless(form, &dump(form).input(), 3);
    }
}

/// A word without end is no number.
#[test]
fn endless_list() {
    let image = sound_file("endless_list");
    let image = image.to_str().expect("a folder with a plain name");
    for reader in READERS {
        let arguments = [reader, image, "--magazines", "/dev/zero"];
        let ran = finish(command_in_little_memory(&arguments), None);
        assert_wrong(&ran, &format!("{reader} --magazines /dev/zero"));
    }
}
