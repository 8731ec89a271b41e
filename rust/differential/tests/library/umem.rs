//! The two printed dumps of libumem, stored in hexadecimal: the buffer at 0x49fc0, out on a
//! request of 10, and out on one of 16 and overrun.

use combgallop::{Grant, Profile};
use differential::samples::from_hex;
use differential::{Form, Image, Sequence, Shape};

use crate::calls::{Call, Numbers, Twin};
use crate::counts::Counts;
use crate::survey::Room;
use crate::{inspect, report, survey};

const SEED: u64 = 0x0a6e_35f1;

const ALLOCATED: &str = include_str!("../../../../samples/umem.hex");
const OVERRUN: &str = include_str!("../../../../samples/umem_overrun.hex");

const BUFFER: u32 = 0x49fc0;

/// The one buffer of the dumps, and the record that its T0 names.
const SHAPE: Shape = Shape {
    cache: 0x3d888,
    heap_base: BUFFER,
    record_base: 0x50000,
    size: 24,
    count: 1,
};

/// An image as it is stored: the sheet's length, a sheet of 48 bytes, a chunk of 40, and a
/// record of 100.
fn stored(text: &str) -> Image {
    let input = from_hex(text);
    assert_eq!((input.len(), input[0]), (1 + 48 + 40 + 100, 48));
    Image {
        form: Form::UserShort,
        shape: SHAPE,
        times: [0; 5],
        sheet: input[1..49].to_vec(),
        heap: input[49..89].to_vec(),
        records: input[89..].to_vec(),
        log: Vec::new(),
        magazines: Vec::new(),
    }
}

/// The same, read under the kernel profile: its record is cut to 96 bytes.
fn stored_for_kernel(text: &str) -> Image {
    let mut image = stored(text);
    image.form = Form::Short;
    image.records.truncate(96);
    image
}

/// The report by both, and the verdict in it by inspect and survey.
fn assert_reported(image: &Image, expected: &str, verdict: (u32, u32)) {
    let mut sequence = Sequence::new(SEED);
    let text = report::compare(image, 64, &mut sequence, image);
    assert_eq!(text.as_deref(), Ok(expected), "{image}");
    let found = inspect::compare(image, 3, &mut sequence, image).expect("findings");
    let found = found[0].verdict;
    assert_eq!((found.number(), found.value()), verdict, "{image}");
    let room = Room { rows: 3, chain: 3 };
    let surveyed = survey::compare(image, room, &mut sequence, image);
    assert!(surveyed.is_ok(), "{image}");
}

#[test]
fn reports_under_the_userland_profile() {
    let expected = "heap report 1\n0 allocated 10\nchain 0 end\nfaults 0\n";
    assert_eq!(expected, include_str!("../../../../samples/umem.expected"));
    assert_reported(&stored(ALLOCATED), expected, (2, 10));

    let expected = "heap report 1\n0 fault 28 24\nchain 0 end\nfaults 1\n";
    let stored_text = include_str!("../../../../samples/umem_overrun.expected");
    assert_eq!(expected, stored_text);
    assert_reported(&stored(OVERRUN), expected, (28, 24));
}

/// There the coded size is the size: 0x11a7 is 251 x 18 + 1, and 0x1789 is 251 x 24 + 1.
#[test]
fn reports_under_the_kernel_profile() {
    let expected = "heap report 1\n0 allocated 18\nchain 0 end\nfaults 0\n";
    assert_reported(&stored_for_kernel(ALLOCATED), expected, (2, 18));
    let expected = "heap report 1\n0 fault 28 24\nchain 0 end\nfaults 1\n";
    assert_reported(&stored_for_kernel(OVERRUN), expected, (28, 24));
}

/// A record of 100 bytes is not one of 96, nor the other way round.
#[test]
fn refused_by_the_length_of_the_record() {
    let mut sequence = Sequence::new(SEED);
    let mut image = stored(ALLOCATED);
    image.form = Form::Short;
    let mut other = stored_for_kernel(ALLOCATED);
    other.form = Form::UserShort;
    for image in [image, other] {
        let text = report::compare(&image, 64, &mut sequence, &image);
        let number = text.map_err(|refusal| refusal.number);
        assert_eq!(number, Err(3), "{image}");
    }
}

/// "A request of 10 gives 0x12, 0x3a10bfee, code 0x11a7 and guard at 18": a fresh heap at the
/// dump's addresses, after that request, is the dump. It is shown, stored to and freed.
#[test]
fn a_request_of_10_writes_the_dump() {
    let mut sequence = Sequence::new(SEED);
    let mut counts = Counts::default();
    let fresh = Image::laid_out(Form::UserHigh, SHAPE, [0; 5]);
    let mut twin = Twin::new(fresh, &"a request of 10", &mut sequence);
    let mut run = |call: Call| twin.run(&call, &mut counts, &mut sequence);
    let (uptime, thread) = (0, 1);
    let allocate = Call::Allocate {
        grant: Grant::Sized(10),
        uptime,
        thread,
    };
    assert_eq!(run(allocate), Ok(BUFFER));
    let dump = stored(ALLOCATED);
    assert_eq!(twin.image.heap, dump.heap);
    assert_eq!(twin.image.records, dump.records);
    assert_eq!(twin.image.sheet[..48], dump.sheet);

    let lent = &twin.lent;
    let (sheet, heap, records) = (lent.sheet.part(), lent.heap.part(), lent.records.part());
    let answer = combgallop::show_answer(Profile::Userland, sheet, heap, records, BUFFER);
    assert_eq!(answer.0, 10 << 32 | 8 << 16);
    let shown = combgallop::show(Profile::Userland, sheet, heap, records, BUFFER);
    assert_eq!(shown, Ok(&heap[8..18]));

    let mut run = |call: Call| twin.run(&call, &mut counts, &mut sequence);
    let store = Call::Store {
        address: BUFFER,
        offset: 0,
        bytes: vec![7; 10],
    };
    assert_eq!(run(store), Ok(0));
    let free = Call::Free {
        address: BUFFER,
        grant: Grant::Sized(10),
        uptime,
        thread,
    };
    assert_eq!(run(free), Ok(0));
    let text = "heap report 1\n0 free\nchain 1 end\nfaults 0\n";
    assert_reported(&twin.image, text, (0, 0));
}

/// The document's corrupted heap: malloc(16), and then five words, one too many.
#[test]
fn an_overrun_writes_the_second_dump() {
    let mut sequence = Sequence::new(SEED);
    let mut counts = Counts::default();
    let fresh = Image::laid_out(Form::UserHigh, SHAPE, [0; 5]);
    let mut twin = Twin::new(fresh, &"a request of 16", &mut sequence);
    let words: Vec<u8> = [0u32, 1, 2, 3]
        .into_iter()
        .flat_map(u32::to_be_bytes)
        .collect();
    let calls = [
        Call::Allocate {
            grant: Grant::Sized(16),
            uptime: 0,
            thread: 1,
        },
        Call::Store {
            address: BUFFER,
            offset: 0,
            bytes: words,
        },
    ];
    for call in &calls {
        let answer = twin.run(call, &mut counts, &mut sequence);
        assert!(answer.is_ok(), "{call:?}");
    }
    let mut heap = twin.image.heap.clone();
    assert_eq!(heap[24..28], [0xbb, 0xed, 0xfa, 0xce]);
    heap[24..28].copy_from_slice(&4u32.to_be_bytes());
    assert_eq!(heap, stored(OVERRUN).heap);
}

/// The dump's areas laid out anew, under each profile that their record has the length of.
#[test]
fn laid_out_anew() {
    let mut sequence = Sequence::new(SEED);
    let mut counts = Counts::default();
    for (image, form) in [
        (stored(ALLOCATED), Form::UserHigh),
        (stored_for_kernel(ALLOCATED), Form::High),
    ] {
        let mut image = image;
        image.sheet.resize(52, 0);
        let mut twin = Twin::new(image, &"the dump's areas", &mut sequence);
        let call = Call::LayOut(Numbers::new(form, SHAPE));
        assert_eq!(twin.run(&call, &mut counts, &mut sequence), Ok(0));
        let text = "heap report 1\n0 free\nchain 1 end\nfaults 0\n";
        assert_reported(&twin.image, text, (0, 0));
    }
}
