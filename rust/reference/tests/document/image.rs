//! The dump case, in every form of the sheet and under both profiles, and small means to
//! change an image by hand.

use reference::{lay_out, Order, Profile, Refusal};

pub const CACHE: u32 = 0x7003_9928;
pub const BUFFER_0: u32 = 0x70a9_add8;
pub const BUFFER_1: u32 = 0x70a9_ae00;
pub const BUFFER_2: u32 = 0x70a9_ae28;

/// Where the chunks of the dump start in its heap area.
pub const CHUNK: [usize; 3] = [0, 40, 80];

/// Where words stand in a chunk of buffer size 24, and in a record.
pub const R0: usize = 24;
pub const R1: usize = 28;
pub const T0: usize = 32;
pub const T1: usize = 36;
pub const NEXT: usize = 0;
pub const ADDRESS: usize = 4;
pub const STAMP: usize = 16;
pub const THREAD: usize = 24;

/// Where the body of the chain head stands in a sheet.
pub const HEAD: usize = 39;

/// The forms of an image: a sheet of 48 bytes, or one of 52 bytes with one or the other
/// order, and under the userland profile the same three.
#[derive(Clone, Copy, PartialEq, Debug)]
pub enum Form {
    Short,
    High,
    Low,
    UserShort,
    UserHigh,
    UserLow,
}

pub const FORMS: [Form; 6] = [
    Form::Short,
    Form::High,
    Form::Low,
    Form::UserShort,
    Form::UserHigh,
    Form::UserLow,
];

/// The forms of each profile.
pub const KERNEL_FORMS: [Form; 3] = [Form::Short, Form::High, Form::Low];
pub const USER_FORMS: [Form; 3] = [Form::UserShort, Form::UserHigh, Form::UserLow];

/// The forms that lay out writes.
pub const LONG_FORMS: [Form; 4] = [Form::High, Form::Low, Form::UserHigh, Form::UserLow];

impl Form {
    /// The profile to be named in a call.
    pub fn profile(self) -> Profile {
        match self {
            Form::Short | Form::High | Form::Low => Profile::Kernel,
            Form::UserShort | Form::UserHigh | Form::UserLow => Profile::Userland,
        }
    }

    /// What tag 9 means, or a sheet without it.
    pub fn order(self) -> Order {
        match self {
            Form::Short | Form::High | Form::UserShort | Form::UserHigh => Order::HighFirst,
            Form::Low | Form::UserLow => Order::LowFirst,
        }
    }

    /// One of two values: under the kernel profile, and under the userland profile.
    pub fn of<T>(self, kernel: T, userland: T) -> T {
        match self.profile() {
            Profile::Kernel => kernel,
            Profile::Userland => userland,
        }
    }

    /// How long a record is.
    pub fn record_size(self) -> usize {
        self.of(96, 100)
    }

    /// Where the records of the dump start in their area, and how long it is.
    pub fn place(self, record: usize) -> usize {
        self.of([0, 96, 192], [0, 100, 200])[record]
    }

    pub fn record_length(self) -> usize {
        self.of(288, 300)
    }

    /// The addresses of the records of the dump.
    pub fn record(self, record: usize) -> u32 {
        self.of(
            [0x70ae_31a0, 0x70ae_3200, 0x70ae_3260],
            [0x70ae_31a0, 0x70ae_3204, 0x70ae_3268],
        )[record]
    }

    /// The bytes of the field with tag 9, if the form has it.
    pub fn last_field(self) -> &'static [u8] {
        match self {
            Form::Short | Form::UserShort => &[],
            Form::High | Form::UserHigh => &[9, 0, 1, 0],
            Form::Low | Form::UserLow => &[9, 0, 1, 1],
        }
    }

    /// One of two values: where the high byte stands first, and where the low byte
    /// does.
    pub fn pick<T>(self, high: T, low: T) -> T {
        match self.order() {
            Order::HighFirst => high,
            Order::LowFirst => low,
        }
    }

    /// The bytes of a word.
    pub fn word(self, word: u32) -> [u8; 4] {
        self.pick(word.to_be_bytes(), word.to_le_bytes())
    }

    /// The bytes of a row of words.
    pub fn words(self, words: &[u32]) -> Vec<u8> {
        words.iter().flat_map(|word| self.word(*word)).collect()
    }

    /// Writes a word.
    pub fn put(self, bytes: &mut [u8], at: usize, word: u32) {
        bytes[at..at + 4].copy_from_slice(&self.word(word));
    }
}

/// When a call is made, and by which thread.
pub const UPTIME: u32 = 0x1122_3344;
pub const THREAD_WORD: u32 = 0x5566_7788;

/// Thread words that are not 0: the smallest, the largest, and such with 0 in all bytes
/// but one.
pub const THREADS: [u32; 7] = [
    1,
    0xff,
    0x100,
    0x1_0000,
    0x100_0000,
    0x8000_0000,
    0xffff_ffff,
];

/// The sheet, but for the head's bytes.
#[rustfmt::skip]
const DUMP_SHEET: [u8; 48] = [
    1, 0, 4, 0x70, 0x03, 0x99, 0x28,
    2, 0, 4, 0x70, 0xa9, 0xad, 0xd8,
    3, 0, 4, 0x70, 0xae, 0x31, 0xa0,
    4, 0, 2, 0x00, 0x18,
    5, 0, 2, 0x00, 0x28,
    6, 0, 2, 0x00, 0x03,
    7, 0, 4, 0, 0, 0, 0,
    8, 0, 2, 0x02, 0x0f,
];

/// The words of the heap, but for the one that holds the guard.
#[rustfmt::skip]
const DUMP_HEAP: [u32; 30] = [
    0xdeadbeef, 0xdeadbeef, 0xdeadbeef, 0xdeadbeef, 0xdeadbeef, 0xdeadbeef,
    0xfeedface, 0xfeedface, 0x70ae3260, 0x8440c68e,
    0x00000005, 0x0004ef83, 0x00000000, 0x00000000, 0x00000001, 0x00000000,
    0xfeedface, 0x0000139d, 0x70ae3200, 0xd1befaed,
    0xdeadbeef, 0xdeadbeef, 0xdeadbeef, 0xdeadbeef, 0xdeadbeef, 0xdeadbeef,
    0xfeedface, 0xfeedface, 0x70ae31a0, 0x8440c54e,
];

/// The same under the userland profile. Buffer 1 has the coded size 20 too, and the
/// header 0x14, 0x3a10c000 - 0x14 = 0x3a10bfec.
/// 0x70ae3268 xor 0xf4eef4ee = 0x8440c686; 0x70ae3204 xor 0xa110c8ed = 0xd1befae9.
#[rustfmt::skip]
const USER_HEAP: [u32; 30] = [
    0xdeadbeef, 0xdeadbeef, 0xdeadbeef, 0xdeadbeef, 0xdeadbeef, 0xdeadbeef,
    0xfeedface, 0xfeedface, 0x70ae3268, 0x8440c686,
    0x00000014, 0x3a10bfec, 0x00000005, 0x0004ef83, 0x00000001, 0x00000000,
    0xfeedface, 0x0000139d, 0x70ae3204, 0xd1befae9,
    0xdeadbeef, 0xdeadbeef, 0xdeadbeef, 0xdeadbeef, 0xdeadbeef, 0xdeadbeef,
    0xfeedface, 0xfeedface, 0x70ae31a0, 0x8440c54e,
];

/// Next, address, slab, cache, timestamp (here 0), thread, lastlog, contents, depth,
/// fourteen stack words.
#[rustfmt::skip]
const DUMP_RECORDS: [u32; 72] = [
    0x00000000, 0x70a9ae28, 0x70a9fe00, 0x70039928, 0, 0, 0x7004a000, 0x51, 0x61, 2,
    0x101, 0x102, 0, 0, 0, 0, 0, 0, 0, 0, 0, 0, 0, 0,
    0x70ae31a0, 0x70a9ae00, 0x70a9fe00, 0x70039928, 0, 0, 0x7004b000, 0x52, 0x62, 3,
    0x103, 0x104, 0x105, 0, 0, 0, 0, 0, 0, 0, 0, 0, 0, 0,
    0x70ae31a0, 0x70a9add8, 0x70a9fe00, 0x70039928, 0, 0, 0x7004c000, 0x53, 0x63, 1,
    0x106, 0, 0, 0, 0, 0, 0, 0, 0, 0, 0, 0, 0, 0,
];

/// The same with fifteen stack words.
#[rustfmt::skip]
const USER_RECORDS: [u32; 75] = [
    0x00000000, 0x70a9ae28, 0x70a9fe00, 0x70039928, 0, 0, 0x7004a000, 0x51, 0x61, 2,
    0x101, 0x102, 0, 0, 0, 0, 0, 0, 0, 0, 0, 0, 0, 0, 0x201,
    0x70ae31a0, 0x70a9ae00, 0x70a9fe00, 0x70039928, 0, 0, 0x7004b000, 0x52, 0x62, 3,
    0x103, 0x104, 0x105, 0, 0, 0, 0, 0, 0, 0, 0, 0, 0, 0, 0x202,
    0x70ae31a0, 0x70a9add8, 0x70a9fe00, 0x70039928, 0, 0, 0x7004c000, 0x53, 0x63, 1,
    0x106, 0, 0, 0, 0, 0, 0, 0, 0, 0, 0, 0, 0, 0, 0x203,
];

/// The timestamps of the records.
const DUMP_STAMPS: [u64; 3] = [0xa00, 0xb00, 0xc00];

/// "Whole report, 64 bytes."
pub const DUMP_REPORT: &str =
    "heap report 1\n0 free\n1 allocated 20\n2 free\nchain 2 end\nfaults 0\n";

/// The report on the userland dump: the request is the coded size less 8.
pub const USER_REPORT: &str =
    "heap report 1\n0 free\n1 allocated 12\n2 free\nchain 2 end\nfaults 0\n";

/// The size of the dump's grant of buffer 1.
pub fn dump_size(form: Form) -> u32 {
    form.of(20, 12)
}

/// The size of a grant whose guard stands on R0.
pub fn full_size(form: Form) -> u32 {
    form.of(24, 16)
}

/// The bytes that hold the guard of buffer 1, with the granted fill after it: the
/// guard is the byte at offset 20 in both orders.
const DUMP_GUARD: usize = 60;
const DUMP_GUARD_HIGH: [u8; 4] = [0xbb, 0xdd, 0xca, 0xfe];
const DUMP_GUARD_LOW: [u8; 4] = [0xbb, 0xca, 0xdd, 0xba];

/// The three areas of one image, and the form they are in.
#[derive(Clone, PartialEq, Debug)]
pub struct Image {
    pub form: Form,
    pub sheet: Vec<u8>,
    pub heap: Vec<u8>,
    pub records: Vec<u8>,
}

impl Image {
    /// Writes a word of the heap.
    pub fn put_heap(&mut self, at: usize, word: u32) {
        self.form.put(&mut self.heap, at, word);
    }

    /// Writes a word of the records.
    pub fn put_record(&mut self, at: usize, word: u32) {
        self.form.put(&mut self.records, at, word);
    }

    /// Writes the stamp of the record at this place, one number of eight bytes.
    pub fn put_stamp(&mut self, record: usize, stamp: u64) {
        let bytes = self.form.pick(stamp.to_be_bytes(), stamp.to_le_bytes());
        self.records[record + STAMP..][..8].copy_from_slice(&bytes);
    }
}

/// The dump case.
pub fn dump(form: Form) -> Image {
    let mut heap = form.words(form.of(&DUMP_HEAP, &USER_HEAP));
    let guard = form.pick(DUMP_GUARD_HIGH, DUMP_GUARD_LOW);
    heap[DUMP_GUARD..DUMP_GUARD + 4].copy_from_slice(&guard);
    let mut image = Image {
        form,
        sheet: [&DUMP_SHEET, form.last_field()].concat(),
        heap,
        records: form.words(form.of(&DUMP_RECORDS[..], &USER_RECORDS[..])),
    };
    put_sheet(&mut image.sheet, HEAD, form.record(2));
    for (record, stamp) in DUMP_STAMPS.into_iter().enumerate() {
        image.put_stamp(form.place(record), stamp);
    }
    image
}

/// The dump case with another chain head.
pub fn dump_with_head(form: Form, head: u32) -> Image {
    let mut image = dump(form);
    put_sheet(&mut image.sheet, HEAD, head);
    image
}

/// The dump with buffer 1 granted by these redzone words.
pub fn dump_with_redzone(form: Form, r0: u32, r1: u32) -> Image {
    let mut image = dump(form);
    image.put_heap(CHUNK[1] + R0, r0);
    image.put_heap(CHUNK[1] + R1, r1);
    image
}

/// The dump with buffer 1 granted whole.
pub fn dump_whole(form: Form) -> Image {
    dump_with_redzone(form, 0xfeedface, 0xfeedface)
}

/// The dump with buffer 1 granted so that the guard stands on R0. The coded size is 24;
/// 0x3a10c000 - 0x18 = 0x3a10bfe8.
pub fn dump_full(form: Form) -> Image {
    let mut image = dump_with_redzone(form, full_r0(form), 0x1789);
    let header = form.words(form.of(&[], &[0x18, 0x3a10bfe8]));
    image.heap[CHUNK[1]..][..header.len()].copy_from_slice(&header);
    image
}

/// The R0 word after a full-size grant: the byte bb stands first in memory.
pub fn full_r0(form: Form) -> u32 {
    form.pick(0xbbedface, 0xfeedfabb)
}

/// Areas of these lengths with 0 in every byte, for lay out to write.
pub fn blank(form: Form, heap_length: usize, record_length: usize) -> Image {
    Image {
        form,
        sheet: vec![0; 52],
        heap: vec![0; heap_length],
        records: vec![0; record_length],
    }
}

/// A fresh heap of so many buffers of this size, from these bases on.
pub fn fresh(form: Form, heap_base: u32, record_base: u32, size: u32, count: u32) -> Image {
    let heap_length = (count * (size + 16)) as usize;
    let mut image = blank(form, heap_length, count as usize * form.record_size());
    let answer = lay_out(
        form.profile(),
        form.order(),
        CACHE,
        heap_base,
        record_base,
        size,
        count,
        &mut image.sheet,
        &mut image.heap,
        &mut image.records,
    );
    assert_eq!(answer, Ok(()));
    image
}

/// Writes a word of a sheet: "sheet fields stay big-endian".
pub fn put_sheet(sheet: &mut [u8], at: usize, word: u32) {
    sheet[at..at + 4].copy_from_slice(&word.to_be_bytes());
}

/// A refusal with detail 0.
pub fn refused<T>(number: u8) -> Result<T, Refusal> {
    Err(Refusal { number, detail: 0 })
}

/// Refusal 7 with its detail.
pub fn damaged<T>(detail: u8) -> Result<T, Refusal> {
    Err(Refusal { number: 7, detail })
}
