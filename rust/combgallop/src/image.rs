//! An image over borrowed bytes.

use crate::record::ROW_LENGTH;
use crate::{
    area_lengths, inspect, latest, report, survey, survey_answer, Chain, Findings, Latest, Order,
    Profile, Record, Refusal, Row, Sheet, Survey, Transaction,
};

/// An image whose parts are as long as its sheet says, and the magazine list that it is read
/// with. Nothing is copied. The library judges: whoever makes an image is told its refusals 1
/// to 4, and the calls on it then ask for nothing but room for what they write. What is read
/// of it here are words, at the places that the rules name, and addresses.
///
/// ```
/// use combgallop::{Image, Latest, Profile, Refusal, Verdict};
///
/// // A file as the report program reads it: a byte, the sheet's length, and then the image.
/// let bytes = include_bytes!("../../../samples/corrupt.image");
/// let image = Image::split(Profile::Kernel, bytes)?;
/// let mut rows = vec![0; image.rows_length()];
/// for finding in image.inspect(&mut rows)? {
///     let address = image.buffer_address(finding.index);
///     println!("{address:#x}: {}", finding.verdict);
///     assert_eq!(finding.verdict, Verdict::BadFill(0));
/// }
/// let latest = image.latest(0, 7000)?;
/// assert_eq!(latest, Latest::Record(0));
///
/// let cut = Image::split(Profile::Kernel, &bytes[..100]);
/// assert_eq!(cut.err(), Some(Refusal::BadLength));
/// # Ok::<(), Refusal>(())
/// ```
#[derive(Clone, Copy, Debug)]
pub struct Image<'a> {
    profile: Profile,
    sheet: &'a [u8],
    heap: &'a [u8],
    records: &'a [u8],
    log: &'a [u8],
    magazines: &'a [u32],
}

impl<'a> Image<'a> {
    /// The image of these parts, with an empty magazine list. Refused as a survey of it is: for
    /// its sheet (1, 2) or for the length of a part (3).
    pub fn new(
        profile: Profile,
        sheet: &'a [u8],
        heap: &'a [u8],
        records: &'a [u8],
        log: &'a [u8],
    ) -> Result<Image<'a>, Refusal> {
        let image = Image {
            profile,
            sheet,
            heap,
            records,
            log,
            magazines: &[],
        };
        image.accepted()
    }

    /// The image in the bytes of a file: one byte, the sheet's length; then sheet, heap, records
    /// and log, one behind the other. All that follows the records is the log. Where the bytes
    /// end early, the sheet (1) or an area (3) is refused.
    pub fn split(profile: Profile, bytes: &'a [u8]) -> Result<Image<'a>, Refusal> {
        // A part of a sheet is none, though it may look like a sheet of the shorter form.
        let cut = bytes.split_first();
        let cut = cut.and_then(|(length, rest)| rest.split_at_checked(usize::from(*length)));
        let (sheet, rest) = cut.ok_or(Refusal::BadSheet)?;
        let lengths = area_lengths(profile, sheet)?;
        let (heap, rest) = split_at_most(rest, lengths.heap);
        let (records, log) = split_at_most(rest, lengths.records);
        Image::new(profile, sheet, heap, records, log)
    }

    /// The same image with the addresses of the buffers that are in magazines. Refused where
    /// there are more of them than buffers (3) or where one is no buffer's (4).
    ///
    /// ```
    /// use combgallop::{Image, Profile, Refusal, Verdict};
    ///
    /// let bytes = include_bytes!("../../../samples/dump.image");
    /// let image = Image::split(Profile::Kernel, bytes)?;
    /// let magazines = [image.buffer_address(0)];
    /// let image = image.with_magazines(&magazines)?;
    /// let mut rows = vec![0; image.rows_length()];
    /// let first = image.inspect(&mut rows)?.next();
    /// // It is on the chain too.
    /// assert_eq!(first.map(|finding| finding.verdict), Some(Verdict::FreedTwice));
    /// # Ok::<(), Refusal>(())
    /// ```
    pub fn with_magazines(self, magazines: &'a [u32]) -> Result<Image<'a>, Refusal> {
        let image = Image { magazines, ..self };
        image.accepted()
    }

    /// The image, if the library finds nothing to refuse but that it was lent no room to write
    /// to: each image has a buffer, so that a survey needs some.
    fn accepted(self) -> Result<Image<'a>, Refusal> {
        let answer = survey_answer(
            self.profile,
            self.sheet,
            self.heap,
            self.records,
            self.magazines,
            self.log,
            &mut [],
            &mut [],
        );
        match answer.value() {
            Err(Refusal::ShortOutput) | Ok(_) => Ok(self),
            Err(refusal) => Err(refusal),
        }
    }

    pub fn profile(&self) -> Profile {
        self.profile
    }

    pub fn sheet(&self) -> Sheet {
        Sheet::read(self.sheet)
    }

    pub fn order(&self) -> Order {
        self.sheet().order
    }

    /// How many buffers there are, and as many records.
    pub fn count(&self) -> u32 {
        self.sheet().count
    }

    pub fn magazines(&self) -> &'a [u32] {
        self.magazines
    }

    /// How many rows the log has.
    pub fn log_rows(&self) -> usize {
        self.log.len() / ROW_LENGTH
    }

    pub fn buffer_address(&self, index: u32) -> u32 {
        let sheet = self.sheet();
        let distance = index.wrapping_mul(sheet.chunk_size);
        sheet.heap_base.wrapping_add(distance)
    }

    /// Which buffer starts at an address, if one does.
    pub fn buffer_at(&self, address: u32) -> Option<u32> {
        let sheet = self.sheet();
        self.part_at(address, sheet.heap_base, sheet.chunk_size)
    }

    /// The bytes of a buffer, and its redzone and tag behind them.
    pub fn chunk(&self, index: u32) -> Option<&'a [u8]> {
        part(self.heap, self.sheet().chunk_size as usize, index)
    }

    pub fn record_address(&self, index: u32) -> u32 {
        let distance = index.wrapping_mul(self.record_length());
        self.sheet().record_base.wrapping_add(distance)
    }

    /// Which record starts at an address, if one does.
    pub fn record_at(&self, address: u32) -> Option<u32> {
        self.part_at(address, self.sheet().record_base, self.record_length())
    }

    pub fn record(&self, index: u32) -> Option<Record> {
        let bytes = part(self.records, self.record_length() as usize, index)?;
        Record::read(self.order(), bytes)
    }

    /// A row of the log.
    pub fn row(&self, index: u32) -> Option<Row> {
        Row::read(self.order(), part(self.log, ROW_LENGTH, index)?)
    }

    /// How many numbers an inspection or a survey writes.
    pub fn rows_length(&self) -> usize {
        3 * self.count() as usize
    }

    /// The findings, in the order of the buffers. See [`inspect`].
    pub fn inspect<'r>(&self, rows: &'r mut [u32]) -> Result<Findings<'r>, Refusal> {
        inspect(
            self.profile,
            self.sheet,
            self.heap,
            self.records,
            self.magazines,
            rows,
        )
    }

    /// The findings and the chain. See [`survey`].
    pub fn survey<'r>(&self, rows: &'r mut [u32]) -> Result<Survey<'r>, Refusal> {
        survey(
            self.profile,
            self.sheet,
            self.heap,
            self.records,
            self.magazines,
            self.log,
            rows,
        )
    }

    /// The text of the report. See [`report`].
    pub fn report(&self, output: &mut [u8]) -> Result<usize, Refusal> {
        report(
            self.profile,
            self.sheet,
            self.heap,
            self.records,
            self.magazines,
            self.log,
            output,
        )
    }

    /// The latest transaction of a buffer at the uptime `now`. See [`latest`].
    pub fn latest(&self, index: u32, now: u32) -> Result<Latest, Refusal> {
        latest(
            self.profile,
            self.sheet,
            self.heap,
            self.records,
            self.log,
            index,
            now,
        )
    }

    /// What a row or a record says of a transaction, if the image has it.
    ///
    /// ```
    /// use combgallop::{Image, Profile, Refusal};
    ///
    /// let bytes = include_bytes!("../../../samples/relay.image");
    /// let image = Image::split(Profile::Kernel, bytes)?;
    /// let (buffer, now) = (4, 95_000);
    /// let latest = image.latest(buffer, now)?;
    /// if let Some(last) = image.transaction(latest) {
    ///     println!("thread {:#x}, {} ms ago", last.thread, last.age(now));
    ///     assert_eq!((last.thread, last.age(now)), (0x42, 4000));
    /// }
    /// # Ok::<(), Refusal>(())
    /// ```
    pub fn transaction(&self, place: Latest) -> Option<Transaction> {
        let (thread, uptime, kind) = match place {
            Latest::Record(index) => {
                let record = self.record(index as u32)?;
                (record.thread, record.stamp as u32, None)
            }
            Latest::Row(index) => {
                let row = self.row(index as u32)?;
                (row.thread, row.uptime, Some(row.kind))
            }
        };
        Some(Transaction {
            place,
            thread,
            uptime,
            kind,
        })
    }

    /// The records that a chain meets, in its order, for the chain that a survey of this image
    /// has found: as many as it says, each by the word before.
    ///
    /// ```
    /// use combgallop::{Image, Profile, Refusal};
    ///
    /// let bytes = include_bytes!("../../../samples/dump.image");
    /// let image = Image::split(Profile::Kernel, bytes)?;
    /// let mut rows = vec![0; image.rows_length()];
    /// let chain = image.survey(&mut rows)?.chain;
    /// assert!(image.records_met(chain).eq([2, 0]));
    /// # Ok::<(), Refusal>(())
    /// ```
    pub fn records_met(self, chain: Chain) -> impl Iterator<Item = u32> + 'a {
        let mut link = self.sheet().head;
        (0..chain.met).map_while(move |_| {
            let record = self.record_at(link)?;
            link = self.record(record)?.next;
            Some(record)
        })
    }

    fn record_length(&self) -> u32 {
        self.records.len() as u32 / self.count()
    }

    /// Which part starts at an address, where each is `length` bytes from `base` on.
    fn part_at(&self, address: u32, base: u32, length: u32) -> Option<u32> {
        let distance = address.checked_sub(base)?;
        let index = distance / length;
        let is_start = distance.is_multiple_of(length) && index < self.count();
        is_start.then_some(index)
    }
}

/// The first bytes, so many or as many as there are, and the rest.
fn split_at_most(bytes: &[u8], length: usize) -> (&[u8], &[u8]) {
    bytes.split_at(length.min(bytes.len()))
}

/// Part `index` of an area of parts with that length, if the area has it.
fn part(area: &[u8], length: usize, index: u32) -> Option<&[u8]> {
    area.chunks_exact(length).nth(index as usize)
}
