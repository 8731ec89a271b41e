//! What the library finds in an image, and where that is.

use combgallop::{Chain, Ending, Image, Refusal, Transaction, Verdict};

/// The uptime that latest transactions are asked for at where none is given: the largest there
/// is, at which the largest stamp is the youngest.
const UNWRAPPED: u32 = u32::MAX;

pub struct Found<'a> {
    pub image: Image<'a>,
    /// The uptime at the reset, if it is known.
    pub now: Option<u32>,
    pub chain: Chain,
    /// The records that the chain meets, in its order.
    pub met: Vec<u32>,
    pub buffers: Vec<Buffer>,
}

/// What is found of a buffer.
#[derive(Clone, Copy)]
pub struct Buffer {
    pub index: u32,
    pub address: u32,
    pub verdict: Verdict,
    /// The first place on the chain at which a record is met that names it, counted from 1.
    pub place: Option<usize>,
    /// How often it is in the magazine list.
    pub listed: usize,
}

impl Buffer {
    /// The address of the first hurt byte.
    pub fn hurt(&self) -> Option<u32> {
        let offset = self.verdict.offset()?;
        Some(self.address.wrapping_add(offset))
    }
}

impl<'a> Found<'a> {
    pub fn new(image: Image<'a>, now: Option<u32>) -> Result<Found<'a>, Refusal> {
        let mut rows = vec![0; image.rows_length()];
        let survey = image.survey(&mut rows)?;
        let chain = survey.chain;
        let buffers = survey.findings.map(|finding| Buffer {
            index: finding.index,
            address: image.buffer_address(finding.index),
            verdict: finding.verdict,
            place: None,
            listed: 0,
        });
        let mut found = Found {
            image,
            now,
            chain,
            met: image.records_met(chain).collect(),
            buffers: buffers.collect(),
        };
        found.set_places();
        found.count_listed();
        Ok(found)
    }

    fn set_places(&mut self) {
        for (place, record) in (1..).zip(self.met.clone()) {
            if let Some(buffer) = self.named_by(record) {
                let buffer = &mut self.buffers[buffer as usize];
                buffer.place = buffer.place.or(Some(place));
            }
        }
    }

    fn count_listed(&mut self) {
        for word in self.image.magazines() {
            if let Some(buffer) = self.image.buffer_at(*word) {
                self.buffers[buffer as usize].listed += 1;
            }
        }
    }

    /// The buffer that a record names, if it names one.
    pub fn named_by(&self, record: u32) -> Option<u32> {
        let record = self.image.record(record)?;
        self.image.buffer_at(record.buffer)
    }

    /// The records that name a buffer.
    pub fn naming(&self, buffer: u32) -> Vec<u32> {
        let records = 0..self.image.count();
        let naming = records.filter(|record| self.named_by(*record) == Some(buffer));
        naming.collect()
    }

    pub fn faults(&self) -> impl Iterator<Item = &Buffer> {
        let buffers = self.buffers.iter();
        buffers.filter(|buffer| buffer.verdict.is_fault())
    }

    /// Whether there is no fault and the chain ends.
    pub fn is_sound(&self) -> bool {
        self.faults().next().is_none() && self.chain.ending == Ending::End
    }

    /// The uptime that latest transactions are asked for at.
    pub fn latest_at(&self) -> u32 {
        self.now.unwrap_or(UNWRAPPED)
    }

    /// The latest transaction of a buffer, or why the library does not say.
    pub fn latest(&self, buffer: u32) -> Result<Transaction, Refusal> {
        let place = self.image.latest(buffer, self.latest_at())?;
        let transaction = self.image.transaction(place);
        Ok(transaction.expect("the library answers a row or a record of the image"))
    }
}
