//! The calls of the traced program, `crates/call_trace`, made on the reference. Each
//! answer is a line; the head of that program's `main.rt` says how a line is written.
//! All calls are made four times, each time on areas of zeros: under the kernel profile and
//! then under userland, and under each first with the high byte first and then with the low
//! one. Two requests are the profile's own, such that their coded sizes are 20 and 24 under
//! both.

use reference::{
    allocate, free, inspect, latest, lay_out, show, store, Finding, Grant, Latest, Order, Profile,
    Refusal, Shown, Verdict, SHEET_LENGTH,
};

use crate::image::ROW_SIZE;
use crate::profile::record_size;
use crate::words::{put_word, word, word_bytes};

const CACHE: u32 = 0x7003_9928;
const HEAP_BASE: u32 = 0x70a9_add8;
const RECORD_BASE: u32 = 0x70ae_31a0;
const SIZE: u32 = 24;
const COUNT: u32 = 3;

const FIRST: u32 = HEAP_BASE;
const SECOND: u32 = HEAP_BASE + 40;
const THIRD: u32 = HEAP_BASE + 80;

/// The guard byte of the first buffer, whose coded size is 20.
const GUARD: usize = 20;

/// Where the chain's head stands in the sheet.
const HEAD: usize = 39;

/// Where R1 of the first buffer stands, which holds the code of that size.
const CODE: usize = 28;

/// The request whose coded size is 20.
fn some(profile: Profile) -> Grant {
    match profile {
        Profile::Kernel => Grant::Sized(20),
        Profile::Userland => Grant::Sized(12),
    }
}

/// The request whose coded size is 24, the buffer's.
fn full(profile: Profile) -> Grant {
    match profile {
        Profile::Kernel => Grant::Sized(24),
        Profile::Userland => Grant::Sized(16),
    }
}

/// The log's rows, of records 0, 1 and 0: record address, uptime, thread, kind.
fn log(profile: Profile) -> [[u32; 4]; 3] {
    let second = RECORD_BASE + record_size(profile) as u32;
    [
        [RECORD_BASE, 150, 7, 1],
        [second, 450, 8, 2],
        [RECORD_BASE, 110, 9, 1],
    ]
}

/// What stands in a lent row of findings before an inspection.
const BLANK: Finding = Finding {
    index: 9,
    verdict: Verdict::Whole,
};

/// An image, its log, and the lines of the calls made on it.
struct Trace {
    profile: Profile,
    order: Order,
    sheet: [u8; SHEET_LENGTH],
    heap: [u8; 120],
    records: Vec<u8>,
    log: Vec<u8>,
    lines: String,
}

/// The formats, each by the line that its lines stand behind.
const FORMATS: [(&str, Profile, Order); 4] = [
    ("kernel high", Profile::Kernel, Order::HighFirst),
    ("kernel low", Profile::Kernel, Order::LowFirst),
    ("userland high", Profile::Userland, Order::HighFirst),
    ("userland low", Profile::Userland, Order::LowFirst),
];

/// All lines.
pub fn trace() -> String {
    let blocks = FORMATS.map(|(name, profile, order)| {
        let lines = trace_in(profile, order);
        format!("{name}\n{lines}")
    });
    blocks.concat()
}

/// The lines of all calls in one format.
fn trace_in(profile: Profile, order: Order) -> String {
    let log = log(profile);
    let log = log.as_flattened().iter();
    let log = log.flat_map(|word| word_bytes(order, *word));
    let mut trace = Trace {
        profile,
        order,
        sheet: [0; SHEET_LENGTH],
        heap: [0; 120],
        records: vec![0; 3 * record_size(profile)],
        log: log.collect(),
        lines: String::new(),
    };
    trace.begin();
    trace.store_and_show();
    trace.refuse_nobody();
    trace.fill_and_free();
    trace.list();
    trace.ask();
    trace.read();
    trace.hurt();
    trace.hurt_codes();
    trace.lines
}

impl Trace {
    fn begin(&mut self) {
        self.inspect();
        self.lay_out();
        self.inspect();
        self.allocate(some(self.profile), 100, 7);
        self.allocate(Grant::Whole, 200, 8);
        self.allocate(Grant::Sized(25), 250, 9);
        self.allocate(Grant::Sized(0), 250, 9);
    }

    fn store_and_show(&mut self) {
        self.store(FIRST, 0, b"relay");
        self.store(FIRST, 10, b"end");
        self.store(FIRST, 18, b"end");
        self.store(SECOND, 20, b"tail");
        self.store(SECOND, 24, b"");
        self.show(FIRST);
        self.show(SECOND);
    }

    fn refuse_nobody(&mut self) {
        self.allocate(Grant::Sized(1), 260, 0);
        self.allocate(Grant::Sized(0), 260, 0);
        self.free(SECOND, Grant::Whole, 260, 0);
        self.free(SECOND + 4, Grant::Whole, 260, 0);
    }

    fn fill_and_free(&mut self) {
        self.allocate(full(self.profile), 300, 7);
        self.allocate(Grant::Whole, 400, 9);
        self.allocate(Grant::Sized(17), 400, 9);
        self.inspect();
        self.free(FIRST, Grant::Whole, 500, 7);
        self.free(FIRST, Grant::Sized(28), 500, 7);
        self.free(THIRD, Grant::Sized(24), 500, 7);
        self.free(SECOND, Grant::Whole, 500, 8);
        self.free(SECOND, Grant::Whole, 600, 8);
    }

    /// The second buffer is free. It is listed while it is on the chain, and while the
    /// chain is empty: then an address between two buffers is listed as well, and more
    /// words than there are buffers.
    fn list(&mut self) {
        let lists: [&[u32]; 3] = [&[SECOND], &[SECOND, SECOND], &[SECOND, FIRST]];
        for list in lists {
            self.inspect_listed(list);
        }
        let head = word(Order::HighFirst, &self.sheet, HEAD);
        put_word(Order::HighFirst, &mut self.sheet, HEAD, 0);
        self.inspect();
        for list in lists {
            self.inspect_listed(list);
        }
        self.inspect_listed(&[SECOND, SECOND + 4]);
        self.inspect_listed(&[SECOND, FIRST, THIRD, SECOND]);
        put_word(Order::HighFirst, &mut self.sheet, HEAD, head);
    }

    fn ask(&mut self) {
        self.show(SECOND);
        self.show(THIRD + 4);
        self.inspect();
        self.latest(0, 600);
        self.latest(1, 600);
        self.latest(0, 120);
        self.latest(3, 600);
    }

    fn read(&mut self) {
        self.read_byte(FIRST + 20);
        self.read_byte(HEAP_BASE + 119);
        self.read_byte(HEAP_BASE + 120);
        self.read_byte(HEAP_BASE - 1);
        self.read_word(FIRST);
        self.read_word(FIRST + 4);
        self.read_word(THIRD + 24);
        self.read_word(HEAP_BASE + 116);
        self.read_word(HEAP_BASE + 117);
        let found = lent_part(&self.records, RECORD_BASE, RECORD_BASE + 104, 4);
        let found = found.map(|bytes| word(self.order, bytes, 0));
        self.line("word", &number_or_none(found));
    }

    /// The guard byte, and then the fourth byte of the buffer, which is the header's in
    /// userland.
    fn hurt(&mut self) {
        self.heap[GUARD] = 0;
        self.use_hurt();
        self.heap[GUARD] = 0xbb;
        self.heap[3] = 0x55;
        self.use_hurt();
    }

    /// The size code of the first buffer: a wrong remainder, the code of size zero, and the
    /// least one above the buffer's size.
    fn hurt_codes(&mut self) {
        for code in [251 * 20 + 2, 1, 251 * 25 + 1] {
            put_word(self.order, &mut self.heap, CODE, code);
            self.use_hurt();
        }
    }

    fn use_hurt(&mut self) {
        self.inspect();
        self.show(FIRST);
        self.store(FIRST, 0, b"late");
        self.free(FIRST, some(self.profile), 700, 7);
        self.allocate(Grant::Sized(1), 800, 7);
        self.inspect();
    }

    fn line(&mut self, call: &str, answer: &str) {
        self.lines += &format!("{call}{answer}\n");
    }

    fn lay_out(&mut self) {
        let answer = lay_out(
            self.profile,
            self.order,
            CACHE,
            HEAP_BASE,
            RECORD_BASE,
            SIZE,
            COUNT,
            &mut self.sheet,
            &mut self.heap,
            &mut self.records,
        );
        self.line("lay_out", &outcome(answer));
    }

    fn allocate(&mut self, grant: Grant, uptime: u32, thread: u32) {
        let (sheet, heap, records) = (&mut self.sheet, &mut self.heap, &mut self.records);
        let answer = allocate(self.profile, sheet, heap, records, grant, uptime, thread);
        self.line("allocate", &told(answer, |address| format!(" {address}")));
    }

    fn free(&mut self, address: u32, grant: Grant, uptime: u32, thread: u32) {
        let (sheet, heap, records) = (&mut self.sheet, &mut self.heap, &mut self.records);
        let profile = self.profile;
        let answer = free(
            profile, sheet, heap, records, address, grant, uptime, thread,
        );
        self.line("free", &outcome(answer));
    }

    fn store(&mut self, address: u32, offset: u32, bytes: &[u8]) {
        let (sheet, heap, records) = (&self.sheet, &mut self.heap, &self.records);
        let answer = store(self.profile, sheet, heap, records, address, offset, bytes);
        self.line("store", &outcome(answer));
    }

    /// Where the buffer starts in the heap and the client's bytes in the buffer, and how
    /// many they are.
    fn show(&mut self, address: u32) {
        let (sheet, heap, records) = (&self.sheet, &self.heap, &self.records);
        let answer = show(self.profile, sheet, heap, records, address);
        let part = numbers(answer.map_or(&[], |shown| shown.bytes));
        let place = told(answer, |Shown { offset, bytes }| {
            format!(" {} {offset} {}", address - HEAP_BASE, bytes.len())
        });
        self.line("find_client", &place);
        self.line("show", &part);
    }

    fn latest(&mut self, index: u32, now: u32) {
        let (sheet, heap, records) = (&self.sheet, &self.heap, &self.records);
        let answer = latest(self.profile, sheet, heap, records, &self.log, index, now);
        let record_size = record_size(self.profile);
        let part = match answer {
            Ok(Latest::Row(row)) => &self.log[row * ROW_SIZE..][..ROW_SIZE],
            Ok(Latest::Record(record)) => &self.records[record * record_size..][..record_size],
            Err(_) => &[],
        };
        let part = numbers(part);
        let place = told(answer, |latest| match latest {
            Latest::Row(row) => format!(" row {row}"),
            Latest::Record(record) => format!(" record {record}"),
        });
        self.line("find_latest", &place);
        self.line("latest", &part);
    }

    fn inspect(&mut self) {
        self.inspect_listed(&[]);
    }

    fn inspect_listed(&mut self, magazines: &[u32]) {
        let mut rows = [BLANK; 4];
        let (sheet, heap, records) = (&self.sheet, &self.heap, &self.records);
        let answer = inspect(self.profile, sheet, heap, records, magazines, &mut rows);
        self.line("inspect", &told(answer, |count| format!(" {count}")));
        for Finding { index, verdict } in rows {
            let (number, value) = (verdict.number(), verdict.value());
            self.line("finding", &format!(" {index} {number} {value}"));
        }
    }

    fn read_byte(&mut self, address: u32) {
        let found = lent_part(&self.heap, HEAP_BASE, address, 1);
        let found = found.map(|bytes| u32::from(bytes[0]));
        self.line("byte", &number_or_none(found));
    }

    fn read_word(&mut self, address: u32) {
        let found = lent_part(&self.heap, HEAP_BASE, address, 4);
        let found = found.map(|bytes| word(self.order, bytes, 0));
        self.line("word", &number_or_none(found));
    }
}

/// "A base address together with the lent bytes it stands for. A word partly outside
/// it is no word."
fn lent_part(area: &[u8], base: u32, address: u32, width: usize) -> Option<&[u8]> {
    let start = address.checked_sub(base)? as usize;
    area.get(start..start + width)
}

fn number_or_none(found: Option<u32>) -> String {
    match found {
        None => String::from(" none"),
        Some(number) => format!(" {number}"),
    }
}

/// What an accepted call says, or "its number and detail".
fn told<T>(answer: Result<T, Refusal>, accepted: impl FnOnce(T) -> String) -> String {
    match answer {
        Ok(value) => accepted(value),
        Err(Refusal { number, detail }) => format!(" refused {number} {detail}"),
    }
}

fn outcome(answer: Result<(), Refusal>) -> String {
    told(answer, |()| String::from(" done"))
}

fn numbers(bytes: &[u8]) -> String {
    bytes.iter().map(|byte| format!(" {byte}")).collect()
}
