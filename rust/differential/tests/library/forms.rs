//! The two forms of a sheet, and the sheets that are nearly one, for every call and under
//! both profiles.

use std::fmt::Display;

use combgallop::Grant;
use differential::samples::{dump, dump_request};
use differential::{Form, Image, Sequence, FORMS, LONG_FORMS};
use reference::{Order, Profile, Refusal, SHEET_LENGTH, SHORT_SHEET_LENGTH};

use crate::calls::{Call, Numbers, Twin};
use crate::counts::{Counts, Met};
use crate::survey::Room;
use crate::{area_lengths, inspect, latest, report, survey};

const SEED: u64 = 0x1c52_48e9;

/// "Whole report, 64 bytes."
const DUMP_REPORT: &str = include_str!("../../../../samples/dump.expected");

/// The same of the userland dump: the request is the coded size less 8.
const USERLAND_REPORT: &str = "\
heap report 1
0 free
1 allocated 12
2 free
chain 2 end
faults 0
";

/// The dump's buffer 1, the one that is allocated.
const BUFFER: u32 = 0x70a9_ae00;

/// Where the body of the ninth field stands.
const ORDER_BODY: usize = 51;

/// Longer sheets than either form, some of them by the 256 that one byte does not tell.
const LONGER: [usize; 5] = [96, 104, 255, 48 + 256, 52 + 256];

/// The calls that the dump accepts, and a lay out in its place.
fn calls(image: &Image) -> [Call; 5] {
    let (uptime, thread) = (0x1122_3344, 0x5566_7788);
    [
        Call::Show { address: BUFFER },
        Call::Store {
            address: BUFFER,
            offset: 1,
            bytes: b"relay".to_vec(),
        },
        Call::Allocate {
            grant: Grant::Sized(image.most_request() as u32),
            uptime,
            thread,
        },
        Call::Free {
            address: BUFFER,
            grant: Grant::Sized(dump_request(image.form)),
            uptime,
            thread,
        },
        Call::LayOut(Numbers::new(image.form, image.shape)),
    ]
}

/// Every reader and every call is made by both and compared. Answers whether the sheet
/// was to be refused.
fn compare_all(
    image: &Image,
    story: &dyn Display,
    counts: &mut Counts,
    sequence: &mut Sequence,
) -> Result<(), Refusal> {
    let room = Room { rows: 9, chain: 3 };
    inspect::note(counts, image, inspect::compare(image, 9, sequence, story));
    let surveyed = survey::compare(image, room, sequence, story);
    survey::note(counts, image, room, surveyed);
    let found = latest::compare(image, 1, 5, sequence, story);
    latest::note(counts, image, found);
    let text = report::compare(image, 128, sequence, story);
    report::note(counts, image, text);
    for call in calls(image) {
        let mut twin = Twin::new(image.clone(), story, sequence);
        // Any answer will do that both give.
        let _ = twin.run(&call, counts, sequence);
    }
    let lengths = area_lengths::compare(image.profile(), &image.sheet, 2, sequence, story);
    area_lengths::note(counts, image, lengths);
    lengths
}

/// A refusal that is no damage.
fn refused(number: u8) -> Result<(), Refusal> {
    Err(Refusal { number, detail: 0 })
}

/// The readers accept both forms, in both orders; lay out, the long form alone.
const ACCEPTED: [Met; 5] = [
    Met::Accepted("area lengths"),
    Met::Accepted("show"),
    Met::Accepted("store"),
    Met::Accepted("allocate"),
    Met::Accepted("free"),
];

/// The dump's sheet of every length, cut or with zeros behind it.
#[test]
fn sheets_of_every_length() {
    let mut sequence = Sequence::new(SEED);
    let mut counts = Counts::default();
    for form in FORMS {
        for length in (0..=64).chain(LONGER) {
            let mut image = dump(form);
            image.sheet.resize(length, 0);
            let is_form = length == SHORT_SHEET_LENGTH || length == form.sheet_length();
            let expected = if is_form { Ok(()) } else { refused(1) };
            let story = format!("{form:?} dump, sheet of {length} bytes");
            let found = compare_all(&image, &story, &mut counts, &mut sequence);
            assert_eq!(found, expected, "{story}");
        }
    }
    let title = "forms, sheets of every length";
    let wanted = [&ACCEPTED[..], &[Met::Refusal(1, 0)]].concat();
    counts.finish(title, SEED, &wanted);
    let of_lay_out = [Met::Accepted("lay out"), Met::Refused("lay out", 1, 0)];
    counts.want(&LONG_FORMS, title, &of_lay_out);
}

/// The short sheet with each field behind it that changes one byte of either order's.
#[test]
fn every_ninth_field() {
    let mut sequence = Sequence::new(SEED);
    let mut counts = Counts::default();
    for form in LONG_FORMS {
        for at in SHORT_SHEET_LENGTH..SHEET_LENGTH {
            for value in 0..=255 {
                compare_changed(form, at, value, &mut counts, &mut sequence);
            }
        }
    }
    let refusals = [Met::Refusal(1, 0), Met::Refusal(2, 0)];
    let wanted = [&ACCEPTED[..], &refusals].concat();
    counts.finish_in(&LONG_FORMS, "forms, every ninth field", SEED, &wanted);
}

/// A wrong tag or length is no form (refusal 1), an order above 1 is no order (2).
fn compare_changed(form: Form, at: usize, value: u8, counts: &mut Counts, sequence: &mut Sequence) {
    let mut image = dump(form);
    let is_same = image.sheet[at] == value;
    image.sheet[at] = value;
    let expected = match (at, value) {
        (ORDER_BODY, 0 | 1) => Ok(()),
        (ORDER_BODY, _) => refused(2),
        _ if is_same => Ok(()),
        _ => refused(1),
    };
    let story = format!("{form:?} dump, {value:#x} at {at} of the sheet");
    let found = compare_all(&image, &story, counts, sequence);
    assert_eq!(found, expected, "{story}");
}

/// The dump in every form of its sheet has one report: what the words say is the same.
#[test]
fn dump_in_every_form() {
    let mut sequence = Sequence::new(SEED);
    for image in FORMS.map(dump) {
        let text = report::compare(&image, 64, &mut sequence, &image);
        let expected = match image.profile() {
            Profile::Kernel => DUMP_REPORT,
            Profile::Userland => USERLAND_REPORT,
        };
        assert_eq!(text.as_deref(), Ok(expected), "{:?}", image.form);
    }
}

/// Where the sheet says the other order, no record names a buffer.
#[test]
fn dump_in_the_other_order() {
    let mut sequence = Sequence::new(SEED);
    for form in LONG_FORMS {
        let mut image = dump(form);
        image.sheet[ORDER_BODY] ^= 1;
        let findings = inspect::compare(&image, 9, &mut sequence, &image).expect("findings");
        let verdicts = findings.iter().map(|finding| finding.verdict.number());
        assert!(verdicts.eq([20; 3]), "{form:?}");
    }
}

/// What lay out writes, under both profiles and for both orders, beside areas of anything.
#[test]
fn lay_out_says_its_order() {
    let mut sequence = Sequence::new(SEED);
    let mut counts = Counts::default();
    for form in LONG_FORMS {
        let field = match form.order() {
            Order::HighFirst => [9, 0, 1, 0],
            Order::LowFirst => [9, 0, 1, 1],
        };
        let mut image = dump(form);
        image.sheet.fill(0xa5);
        let call = Call::LayOut(Numbers::new(form, image.shape));
        let mut twin = Twin::new(image, &"areas of the dump", &mut sequence);
        let answer = twin.run(&call, &mut counts, &mut sequence);
        assert_eq!(answer, Ok(0), "{form:?}");
        assert_eq!(twin.lent.sheet.part()[SHORT_SHEET_LENGTH..], field);
    }
}
