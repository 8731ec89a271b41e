//! The ledger: what a list's arguments and answers alone say of the heap. Nothing here
//! reads a byte of an area; what the library finds there is held against it.

use std::collections::BTreeMap;
use std::fmt::Display;

use combgallop::{Finding, Grant, Profile, Refusal, Verdict};
use differential::{header_length, word_bytes};
use reference::Ending;

use super::call::{Call, Numbers};
use super::twin::Twin;
use crate::expected::expected_profile;

/// The calls and the ledger have no magazine list (M6).
const NO_MAGAZINES: &[u32] = &[];

/// What a granted buffer's client has.
struct Out {
    grant: Grant,
    bytes: Vec<u8>,
}

pub struct Ledger {
    numbers: Numbers,
    /// The buffers that are out, by their addresses.
    out: BTreeMap<u32, Out>,
    /// How many allocates and how many frees were accepted.
    allocates: usize,
    frees: usize,
}

impl Ledger {
    /// "An accepted lay out opens it with no buffer out."
    pub fn open(numbers: Numbers) -> Ledger {
        Ledger {
            numbers,
            out: BTreeMap::new(),
            allocates: 0,
            frees: 0,
        }
    }

    /// The profile laid out under, by which everything is found and shown.
    fn profile(&self) -> Profile {
        expected_profile(self.numbers.profile)
    }

    /// Whether every buffer is out.
    pub fn is_full(&self) -> bool {
        self.out.len() == self.numbers.count as usize
    }

    /// The addresses of all buffers, in order.
    fn addresses(&self) -> impl Iterator<Item = u32> {
        let Numbers {
            heap_base,
            size,
            count,
            ..
        } = self.numbers;
        (0..count).map(move |index| heap_base + index * (size + 16))
    }

    /// Whether a buffer starts at an address.
    fn is_buffer(&self, address: u32) -> bool {
        let Some(distance) = address.checked_sub(self.numbers.heap_base) else {
            return false;
        };
        let step = self.numbers.size + 16;
        distance.is_multiple_of(step) && distance / step < self.numbers.count
    }

    /// Whether refusal 6 doesn't fit.
    fn is_lawful(&self, grant: Grant) -> bool {
        match grant {
            Grant::Whole => true,
            Grant::Sized(size) => {
                let header_length = header_length(self.numbers.profile) as u32;
                (1..=self.numbers.size - header_length).contains(&size)
            }
        }
    }

    /// The refusal that a call has to get, none where it has to be accepted. Lay out has
    /// its own test.
    fn refusal(&self, call: &Call) -> Option<Refusal> {
        match call {
            Call::LayOut(_) => None,
            Call::Allocate { thread: 0, .. } | Call::Free { thread: 0, .. } => {
                Some(Refusal::NoThread)
            }
            Call::Allocate { grant, .. } if !self.is_lawful(*grant) => Some(Refusal::BadSize),
            Call::Allocate { .. } => self.is_full().then_some(Refusal::NoRoom),
            Call::Free { address, .. }
            | Call::Store { address, .. }
            | Call::Show { address, .. }
                if !self.is_buffer(*address) =>
            {
                Some(Refusal::NoSuchBuffer)
            }
            Call::Free { address, grant, .. } => match self.out.get(address) {
                None => Some(Refusal::NotAllocated),
                Some(out) => (out.grant != *grant).then_some(Refusal::OtherGrant),
            },
            Call::Store {
                address,
                offset,
                bytes,
            } => match self.out.get(address) {
                None => Some(Refusal::NotAllocated),
                Some(out) => {
                    let end = *offset as usize + bytes.len();
                    (end > out.bytes.len()).then_some(Refusal::PastClient)
                }
            },
            Call::Show { address } => match self.out.get(address) {
                None => Some(Refusal::NotAllocated),
                Some(_) => None,
            },
        }
    }

    /// Enters a call with its answer, which has to be the one that the ledger allows.
    pub fn enter(&mut self, call: &Call, answer: Result<u32, Refusal>, story: &dyn Display) {
        if let Call::LayOut(numbers) = call {
            if answer.is_ok() {
                *self = Ledger::open(*numbers);
            }
            return;
        }
        let expected = self.refusal(call);
        assert_eq!(answer.err(), expected, "refusal by the ledger: {story}");
        if let Ok(value) = answer {
            self.enter_accepted(call, value, story);
        }
    }

    fn enter_accepted(&mut self, call: &Call, value: u32, story: &dyn Display) {
        match call {
            Call::LayOut(_) => {}
            Call::Allocate { grant, .. } => {
                assert!(self.is_buffer(value), "no buffer at {value:x}: {story}");
                let out = self.granted(*grant);
                let other = self.out.insert(value, out);
                assert!(other.is_none(), "{value:x} granted twice: {story}");
                self.allocates += 1;
            }
            Call::Free { address, .. } => {
                self.out.remove(address);
                self.frees += 1;
            }
            Call::Store {
                address,
                offset,
                bytes,
            } => {
                let out = self.out.get_mut(address).expect("a buffer that is out");
                let start = *offset as usize;
                out.bytes[start..start + bytes.len()].copy_from_slice(bytes);
            }
            Call::Show { address } => {
                let length = self.out[address].bytes.len();
                assert_eq!(value as usize, length, "length shown: {story}");
            }
        }
    }

    /// "Its client bytes are s bytes, or the whole buffer, as the grant's fill, the
    /// uninitialised pattern, leaves them." Its bytes stand in the order laid out (W5).
    fn granted(&self, grant: Grant) -> Out {
        let length = match grant {
            Grant::Whole => self.numbers.size,
            Grant::Sized(size) => size,
        };
        let fill = word_bytes(self.numbers.order, 0xbadd_cafe);
        let fill = fill.into_iter().cycle();
        Out {
            grant,
            bytes: fill.take(length as usize).collect(),
        }
    }

    /// The library finds, shows and reports what the ledger has, and the chain meets
    /// just the buffers that are not out.
    pub fn check(&self, twin: &Twin) {
        let story = &twin.story;
        let is_out = self.allocates - self.frees;
        assert_eq!(self.out.len(), is_out, "out: {story}");
        self.check_findings(twin);
        self.check_report(twin);
        self.check_chain(twin);
        self.check_shown(twin);
        twin.lent.assert_holds(&twin.image, story);
    }

    fn check_findings(&self, twin: &Twin) {
        let lent = &twin.lent;
        let (sheet, heap, records) = (lent.sheet.part(), lent.heap.part(), lent.records.part());
        let expected: Vec<Finding> = (0..)
            .zip(self.addresses())
            .map(|(index, address)| {
                let verdict = match self.out.get(&address).map(|out| out.grant) {
                    None => Verdict::Free,
                    Some(Grant::Whole) => Verdict::Whole,
                    Some(Grant::Sized(size)) => Verdict::Allocated(size),
                };
                Finding { index, verdict }
            })
            .collect();
        let mut rows = vec![0; 3 * expected.len()];
        let profile = self.profile();
        let found = combgallop::inspect(profile, sheet, heap, records, NO_MAGAZINES, &mut rows);
        let found = found.unwrap_or_else(|refusal| panic!("{refusal}: {}", twin.story));
        let found: Vec<Finding> = found.collect();
        assert_eq!(found, expected, "findings: {}", twin.story);
        let found_out = found.iter().filter(|row| row.verdict != Verdict::Free);
        let found_out = found_out.count();
        assert_eq!(found_out, self.allocates - self.frees, "{}", twin.story);
    }

    /// The whole text, with the chain's line: "K records met".
    fn check_report(&self, twin: &Twin) {
        let lent = &twin.lent;
        let (sheet, heap, records) = (lent.sheet.part(), lent.heap.part(), lent.records.part());
        let mut expected = String::from("heap report 1\n");
        for (index, address) in self.addresses().enumerate() {
            expected += &match self.out.get(&address).map(|out| out.grant) {
                None => format!("{index} free\n"),
                Some(Grant::Whole) => format!("{index} whole\n"),
                Some(Grant::Sized(size)) => format!("{index} allocated {size}\n"),
            };
        }
        let met = self.numbers.count as usize + self.frees - self.allocates;
        expected += &format!("chain {met} end\nfaults 0\n");
        let mut output = vec![0; expected.len()];
        let answer = combgallop::report(
            self.profile(),
            sheet,
            heap,
            records,
            NO_MAGAZINES,
            &[],
            &mut output,
        );
        assert_eq!(answer, Ok(expected.len()), "report: {}", twin.story);
        let text = String::from_utf8_lossy(&output);
        assert_eq!(text, expected, "{}", twin.story);
    }

    /// "Buffer i paired with record i", and no call pairs anew.
    fn check_chain(&self, twin: &Twin) {
        let lent = &twin.lent;
        let (sheet, heap, records) = (lent.sheet.part(), lent.heap.part(), lent.records.part());
        let chain = reference::chain(self.numbers.profile, sheet, heap, records).expect("a chain");
        assert_eq!(chain.ending, Ending::End, "{}", twin.story);
        let mut met = chain.met;
        met.sort();
        let expected: Vec<usize> = (0..)
            .zip(self.addresses())
            .filter(|(_, address)| !self.out.contains_key(address))
            .map(|(index, _)| index)
            .collect();
        assert_eq!(met, expected, "chain: {}", twin.story);
    }

    fn check_shown(&self, twin: &Twin) {
        let lent = &twin.lent;
        let (sheet, heap, records) = (lent.sheet.part(), lent.heap.part(), lent.records.part());
        for address in self.addresses() {
            let shown = combgallop::show(self.profile(), sheet, heap, records, address);
            let expected = match self.out.get(&address) {
                Some(out) => Ok(&out.bytes[..]),
                None => Err(Refusal::NotAllocated),
            };
            assert_eq!(shown, expected, "shown at {address:x}: {}", twin.story);
        }
    }
}
