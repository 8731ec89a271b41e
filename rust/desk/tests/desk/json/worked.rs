//! The object of the hurt sample at 7000, written by hand from `docs/DESK.md`, and of an image
//! that is refused.

use differential::samples::from_hex;
use differential::Sequence;
use reference::Profile;

use super::{difference, parse};
use crate::expected::{json_object, open};
use crate::question::{ask, Question};

const SEED: u64 = 0x70be_a2c1;

const HURT: &str = include_str!("../../../../../samples/hurt.hex");

const OBJECT: &str = r#"{
    "combgallop": 1, "profile": "kernel", "now": 7000, "refused": null, "order": "high_first",
    "sheet": {
        "cache": 112, "heap_base": 4096, "record_base": 8192, "buffer_size": 8, "chunk_size": 24,
        "count": 2, "head": 8288, "flags": 527
    },
    "magazines": [], "log_rows": 2, "sound": false, "faults": 2,
    "chain": {"met": 1, "ending": "end", "again": null, "records": [1], "buffers": [1]},
    "latest_at": 7000,
    "buffers": [
        {
            "index": 0, "address": 4096, "verdict": 28, "name": "overrun",
            "words": "written to past the end of what was granted", "fault": true, "size": null,
            "offset": 5, "hurt": 4101, "place": null, "listed": 0,
            "latest": {
                "refused": null, "place": "record", "index": 0, "thread": 64, "uptime": 5000,
                "age": 2000, "kind": null
            }
        },
        {
            "index": 1, "address": 4120, "verdict": 25, "name": "bad_fill",
            "words": "written to after it was freed", "fault": true, "size": null, "offset": 2,
            "hurt": 4122, "place": 1, "listed": 0,
            "latest": {
                "refused": null, "place": "row", "index": 1, "thread": 65, "uptime": 6000,
                "age": 1000, "kind": 2
            }
        }
    ]
}"#;

const REFUSED: &str = r#"{
    "combgallop": 1, "profile": "userland", "now": null,
    "refused": {
        "number": 3, "name": "bad_length", "detail": 0,
        "words": "an area or the log has a wrong length, or the magazine list more words than there are buffers"
    }
}"#;

fn assert_object(question: &Question, name: &str, object: &str, status: i32) {
    let mut sequence = Sequence::new(SEED);
    let ran = ask(question, &["json"], name, &mut sequence);
    let wanted = parse(object).expect("it is JSON");
    let found = parse(&ran.stdout_text()).expect("the command writes JSON");
    assert_eq!(difference(&found, &wanted), None);
    assert_eq!(ran.status, Some(status));
}

#[test]
fn hurt_sample() {
    let mut question = Question::plain(Profile::Kernel, from_hex(HURT));
    question.now = Some(7000);
    let dump = open(&question).expect("the sample is not refused");
    assert_eq!(parse(OBJECT), Ok(json_object(&question, &dump)));
    assert_object(&question, "hurt_sample", OBJECT, 1);
}

/// The sample is a kernel's: as userland's its records end early.
#[test]
fn refused_sample() {
    let mut input = from_hex(HURT);
    input.truncate(input.len() - 32);
    let question = Question::plain(Profile::Userland, input);
    assert_object(&question, "refused_sample", REFUSED, 2);
}
