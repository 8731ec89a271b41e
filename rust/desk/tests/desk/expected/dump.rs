//! An image that is not refused: what the second program finds in it, and the words that the
//! rules name.

use reference::{
    area_lengths, chain, inspect, latest, sheet_order, Chain, Ending, Finding, Latest, Order,
    Profile, Refusal, Verdict,
};

use super::transaction::{Place, Transaction};
use super::words::word;
use crate::counts::{order_name, profile_name};
use crate::question::Question;

/// The uptime that the library is asked with where `--now` is not given.
const LARGEST: u32 = u32::MAX;

const ROW_SIZE: usize = 16;

/// The sheet's numbers (S2).
pub struct Numbers {
    pub cache: u32,
    pub heap_base: u32,
    pub record_base: u32,
    pub buffer_size: u32,
    pub chunk_size: u32,
    pub count: u32,
    pub head: u32,
    pub flags: u32,
}

/// A sheet's numbers have the high byte first, always (W1).
impl Numbers {
    fn read(sheet: &[u8]) -> Numbers {
        let long = |at| word(Order::HighFirst, sheet, at);
        let short = |at: usize| u32::from(sheet[at]) << 8 | u32::from(sheet[at + 1]);
        Numbers {
            cache: long(3),
            heap_base: long(10),
            record_base: long(17),
            buffer_size: short(24),
            chunk_size: short(29),
            count: short(34),
            head: long(39),
            flags: short(46),
        }
    }
}

/// The areas of an image, as a file has them behind its length byte.
struct Areas<'a> {
    sheet: &'a [u8],
    heap: &'a [u8],
    records: &'a [u8],
    log: &'a [u8],
}

/// The areas of a file (G1), or refusal 1 or 2. A file that ends early has areas that are too
/// short.
fn split(profile: Profile, input: &[u8]) -> Result<Areas<'_>, Refusal> {
    let bad_sheet = Refusal {
        number: 1,
        detail: 0,
    };
    let (length, rest) = input.split_first().ok_or(bad_sheet)?;
    let (sheet, rest) = rest
        .split_at_checked(usize::from(*length))
        .ok_or(bad_sheet)?;
    let (heap_length, record_length) = area_lengths(profile, sheet)?;
    let (heap, rest) = rest.split_at(heap_length.min(rest.len()));
    let (records, log) = rest.split_at(record_length.min(rest.len()));
    Ok(Areas {
        sheet,
        heap,
        records,
        log,
    })
}

/// What is known of an image.
pub struct Dump {
    pub profile: Profile,
    pub order: Order,
    pub numbers: Numbers,
    pub sheet: Vec<u8>,
    pub heap: Vec<u8>,
    pub records: Vec<u8>,
    pub log: Vec<u8>,
    pub magazines: Vec<u32>,
    pub now: Option<u32>,
    /// The second program's report: the lines of the library's.
    pub report: String,
    pub verdicts: Vec<Verdict>,
    pub chain: Chain,
}

/// Opens the image of a question, or says which refusal the library has for it.
pub fn open(question: &Question) -> Result<Dump, Refusal> {
    let profile = question.profile;
    let magazines = question.magazines.clone().unwrap_or_default();
    let Areas {
        sheet,
        heap,
        records,
        log,
    } = split(profile, &question.input)?;
    let report = reference::report_text(profile, sheet, heap, records, &magazines, log)?;
    let numbers = Numbers::read(sheet);
    let mut findings = vec![Finding::default(); numbers.count as usize];
    inspect(profile, sheet, heap, records, &magazines, &mut findings)?;
    Ok(Dump {
        profile,
        order: sheet_order(sheet)?,
        numbers,
        sheet: sheet.to_vec(),
        heap: heap.to_vec(),
        records: records.to_vec(),
        log: log.to_vec(),
        magazines,
        now: question.now,
        report,
        verdicts: findings.iter().map(|finding| finding.verdict).collect(),
        chain: chain(profile, sheet, heap, records)?,
    })
}

impl Dump {
    /// How many buffers there are.
    pub fn count(&self) -> usize {
        self.numbers.count as usize
    }

    /// Where a test notes what it meets here.
    pub fn place_name(&self) -> String {
        let (profile, order) = (profile_name(self.profile), order_name(self.order));
        format!("{profile} {order}")
    }

    pub fn buffer_address(&self, index: usize) -> u32 {
        self.numbers.heap_base + index as u32 * self.numbers.chunk_size
    }

    /// How many bytes a record has (A2).
    fn record_size(&self) -> usize {
        match self.profile {
            Profile::Kernel => 96,
            Profile::Userland => 100,
        }
    }

    pub fn record_address(&self, index: usize) -> u32 {
        self.numbers.record_base + (index * self.record_size()) as u32
    }

    pub fn chunk(&self, index: usize) -> &[u8] {
        let size = self.numbers.chunk_size as usize;
        &self.heap[index * size..(index + 1) * size]
    }

    /// A word behind the buffer: R0, R1, T0 and T1 are at 0, 4, 8 and 12 (C1).
    pub fn word_behind(&self, index: usize, at: usize) -> u32 {
        let at = self.numbers.buffer_size as usize + at;
        word(self.order, self.chunk(index), at)
    }

    pub fn r1(&self, index: usize) -> u32 {
        self.word_behind(index, 4)
    }

    fn record_word(&self, record: usize, at: usize) -> u32 {
        word(self.order, &self.records, record * self.record_size() + at)
    }

    /// The buffer that a record names, if it names one (A3, A7).
    pub fn named_buffer(&self, record: usize) -> Option<usize> {
        let address = self.record_word(record, 4);
        (0..self.count()).find(|index| self.buffer_address(*index) == address)
    }

    /// The records that name a buffer.
    pub fn namers(&self, index: usize) -> Vec<usize> {
        let address = self.buffer_address(index);
        let records = 0..self.count();
        let namers = records.filter(|record| self.record_word(*record, 4) == address);
        namers.collect()
    }

    /// The place on the chain, counted from 1, of the first record that names a buffer.
    pub fn place(&self, index: usize) -> Option<usize> {
        let address = self.buffer_address(index);
        let mut met = self.chain.met.iter();
        let place = met.position(|record| self.record_word(*record, 4) == address);
        place.map(|place| place + 1)
    }

    /// How often a buffer is in the magazine list.
    pub fn listed(&self, index: usize) -> usize {
        let address = self.buffer_address(index);
        let words = self.magazines.iter();
        words.filter(|word| **word == address).count()
    }

    /// The uptime that the latest transactions are asked for at.
    pub fn asked_at(&self) -> u32 {
        self.now.unwrap_or(LARGEST)
    }

    /// The latest transaction of a buffer, or why the library refuses to say.
    pub fn latest(&self, index: usize) -> Result<Transaction, Refusal> {
        let Dump {
            sheet,
            heap,
            records,
            log,
            ..
        } = self;
        let (profile, buffer, at) = (self.profile, index as u32, self.asked_at());
        let found = latest(profile, sheet, heap, records, log, buffer, at)?;
        Ok(match found {
            Latest::Record(record) => self.transaction_of_record(record),
            Latest::Row(row) => self.transaction_of_row(row),
        })
    }

    /// The words of a record (A3). The low half of its stamp is its uptime (L2).
    fn transaction_of_record(&self, record: usize) -> Transaction {
        let low_half = match self.order {
            Order::HighFirst => 20,
            Order::LowFirst => 16,
        };
        let uptime = self.record_word(record, low_half);
        Transaction {
            place: Place::Record(record),
            thread: self.record_word(record, 24),
            uptime,
            age: self.age(uptime),
        }
    }

    /// The words of a row (A5).
    fn transaction_of_row(&self, row: usize) -> Transaction {
        let row_word = |at| word(self.order, &self.log, row * ROW_SIZE + at);
        Transaction {
            place: Place::Row(row, row_word(12)),
            thread: row_word(8),
            uptime: row_word(4),
            age: self.age(row_word(4)),
        }
    }

    /// An age at `--now` (W4), where it is given.
    fn age(&self, uptime: u32) -> Option<u32> {
        self.now.map(|now| now.wrapping_sub(uptime))
    }

    pub fn faults(&self) -> usize {
        let faults = self.verdicts.iter();
        faults.filter(|verdict| verdict.number() >= 20).count()
    }

    /// Whether there is no fault and the chain ends.
    pub fn is_sound(&self) -> bool {
        self.faults() == 0 && self.chain.ending == Ending::End
    }

    /// The exit status of every command on it.
    pub fn status(&self) -> i32 {
        i32::from(!self.is_sound())
    }
}
