//! Long lists of calls on a fresh heap, against a ledger kept from the calls'
//! arguments and answers.

use crate::image::{fresh, refused, Form, Image, LONG_FORMS};
use crate::inputs::Sequence;
use reference::*;

const HEAP_BASE: u32 = 0x1000;
const RECORD_BASE: u32 = 0x2_0000;

/// What is out: "its grant" and "its client bytes".
#[derive(Clone, PartialEq, Debug)]
struct Out {
    grant: Grant,
    client: Vec<u8>,
}

/// A heap, its ledger and the buffer size and count it was laid out with. The ledger is
/// what is out and "how many calls were accepted": allocates, frees and stores.
#[derive(PartialEq, Debug)]
struct Heap {
    image: Image,
    out: Vec<Option<Out>>,
    allocates: usize,
    frees: usize,
    stores: usize,
    size: u32,
    count: u32,
}

impl Heap {
    fn fresh(form: Form, size: u32, count: u32) -> Heap {
        let image = fresh(form, HEAP_BASE, RECORD_BASE, size, count);
        let out = vec![None; count as usize];
        Heap {
            image,
            out,
            allocates: 0,
            frees: 0,
            stores: 0,
            size,
            count,
        }
    }

    fn address(&self, index: usize) -> u32 {
        HEAP_BASE + index as u32 * (self.size + 16)
    }

    fn allocate(&mut self, grant: Grant) {
        let Image {
            form,
            sheet,
            heap,
            records,
        } = &mut self.image;
        let answer = allocate(form.profile(), sheet, heap, records, grant, 1, 2);
        if self.out.iter().all(Option::is_some) {
            assert_eq!(answer, refused(5));
            return;
        }
        let distance = answer.unwrap() - HEAP_BASE;
        let index = (distance / (self.size + 16)) as usize;
        assert_eq!(distance % (self.size + 16), 0);
        assert!(self.out[index].is_none(), "granted twice");
        let length = match grant {
            Grant::Whole => self.size,
            Grant::Sized(s) => s,
        };
        let fill = form.pick([0xba, 0xdd, 0xca, 0xfe], [0xfe, 0xca, 0xdd, 0xba]);
        let client = fill.into_iter().cycle().take(length as usize).collect();
        self.out[index] = Some(Out { grant, client });
        self.allocates += 1;
    }

    fn free(&mut self, index: usize, grant: Grant) {
        let address = self.address(index);
        let Image {
            form,
            sheet,
            heap,
            records,
        } = &mut self.image;
        let answer = free(form.profile(), sheet, heap, records, address, grant, 3, 4);
        match &self.out[index] {
            None => assert_eq!(answer, refused(8)),
            Some(out) if out.grant != grant => {
                assert_eq!(answer, refused(9))
            }
            Some(_) => {
                assert_eq!(answer, Ok(()));
                self.out[index] = None;
                self.frees += 1;
            }
        }
    }

    fn store(&mut self, index: usize, offset: usize, bytes: &[u8]) {
        let address = self.address(index);
        let Image {
            form,
            sheet,
            heap,
            records,
        } = &mut self.image;
        let answer = store(
            form.profile(),
            sheet,
            heap,
            records,
            address,
            offset as u32,
            bytes,
        );
        match &mut self.out[index] {
            None => assert_eq!(answer, refused(8)),
            Some(out) if offset + bytes.len() > out.client.len() => {
                assert_eq!(answer, refused(10))
            }
            Some(out) => {
                assert_eq!(answer, Ok(()));
                out.client[offset..offset + bytes.len()].copy_from_slice(bytes);
                self.stores += 1;
            }
        }
    }

    /// "Any other size is refusal 6", also where there is no room.
    fn ask_too_much(&mut self, request: u32) {
        let before = self.image.clone();
        let Image {
            form,
            sheet,
            heap,
            records,
        } = &mut self.image;
        let grant = Grant::Sized(request);
        let answer = allocate(form.profile(), sheet, heap, records, grant, 1, 2);
        assert_eq!(answer, refused(6));
        assert_eq!(self.image, before);
    }

    /// "Such a call is a refused call": an allocate and a free by thread 0, whatever
    /// they ask for and whether there is room or not.
    fn ask_by_nobody(&mut self, index: usize, grant: Grant) {
        let before = self.image.clone();
        let address = self.address(index);
        let Image {
            form,
            sheet,
            heap,
            records,
        } = &mut self.image;
        let profile = form.profile();
        let allocated = allocate(profile, sheet, heap, records, grant, 5, 0);
        assert_eq!(allocated, refused(13));
        let freed = free(profile, sheet, heap, records, address, grant, 6, 0);
        assert_eq!(freed, refused(13));
        assert_eq!(self.image, before);
    }

    /// Every buffer is found as the ledger has it, shows the stored bytes, and is
    /// met by the chain just when it is not out. "Demand 3 reads with an empty list."
    fn check(&self) {
        let Image {
            form,
            sheet,
            heap,
            records,
        } = &self.image;
        let mut rows = vec![Finding::default(); self.count as usize];
        inspect(form.profile(), sheet, heap, records, &[], &mut rows).unwrap();
        let chain = chain(form.profile(), sheet, heap, records).unwrap();
        assert_eq!(chain.ending, Ending::End);
        let out = self.allocates - self.frees;
        assert_eq!(self.out.iter().flatten().count(), out);
        assert_eq!(chain.met.len(), self.count as usize - out);
        for (index, out) in self.out.iter().enumerate() {
            let verdict = rows[index].verdict;
            let found = (verdict.number(), verdict.value());
            let expected = match out.as_ref().map(|out| out.grant) {
                None => (0, 0),
                Some(Grant::Whole) => (1, 0),
                Some(Grant::Sized(s)) => (2, s),
            };
            assert_eq!(found, expected);
            assert_eq!(chain.met.contains(&index), out.is_none());
            if let Some(out) = out {
                let shown = show(form.profile(), sheet, heap, records, self.address(index));
                let expected = Shown {
                    offset: client_offset(*form, out.grant),
                    bytes: &out.client,
                };
                assert_eq!(shown, Ok(expected));
            }
        }
    }
}

/// Where in its buffer the first client byte stands: "the first 8 buffer bytes are a
/// header" of a sized grant under the userland profile.
fn client_offset(form: Form, grant: Grant) -> u32 {
    match grant {
        Grant::Whole => 0,
        Grant::Sized(_) => form.of(0, 8),
    }
}

/// A whole grant or one of a lawful size, of which there are as many as the largest.
fn some_grant(sequence: &mut Sequence, largest: u32) -> Grant {
    match sequence.below(4) {
        _ if largest == 0 => Grant::Whole,
        0 => Grant::Whole,
        1 => Grant::Sized(largest),
        _ => Grant::Sized(1 + sequence.below(largest)),
    }
}

/// A list of calls on a fresh heap, with something done between each call and the next,
/// and the heap at its end.
fn run_with(
    form: Form,
    size: u32,
    count: u32,
    seed: u64,
    mut between: impl FnMut(&mut Heap),
) -> Heap {
    let mut sequence = Sequence::new(seed);
    let mut heap = Heap::fresh(form, size, count);
    let largest = form.of(size, size - 8);
    heap.check();
    for _ in 0..300 {
        let index = sequence.below(count) as usize;
        match sequence.below(5) {
            4 => {
                heap.ask_too_much(0);
                heap.ask_too_much(largest + 1 + sequence.below(20));
            }
            0 => heap.allocate(some_grant(&mut sequence, largest)),
            1 => {
                let some = some_grant(&mut sequence, largest);
                heap.free(index, some);
            }
            2 => {
                let grant = heap.out[index].as_ref().map(|out| out.grant);
                heap.free(index, grant.unwrap_or(Grant::Whole));
            }
            _ => {
                let offset = sequence.below(size + 2) as usize;
                let length = sequence.below(size + 2) as usize;
                let bytes: Vec<u8> = (0..length).map(|_| sequence.byte()).collect();
                heap.store(index, offset, &bytes);
            }
        }
        between(&mut heap);
        heap.check();
    }
    heap
}

/// The list of calls alone.
fn run(form: Form, size: u32, count: u32, seed: u64) -> Heap {
    run_with(form, size, count, seed, |_| {})
}

/// The same list with calls by thread 0 in between: of each buffer with its grant, where
/// another thread's free would be accepted, and with any.
fn run_with_nobody(form: Form, size: u32, count: u32, seed: u64) -> Heap {
    let mut sequence = Sequence::new(seed + 100);
    run_with(form, size, count, seed, |heap| {
        for index in 0..count as usize {
            let granted = heap.out[index].as_ref().map(|out| out.grant);
            let any = Grant::Sized(sequence.below(size + 2));
            heap.ask_by_nobody(index, granted.unwrap_or(Grant::Whole));
            heap.ask_by_nobody(index, any);
        }
    })
}

#[test]
fn calls_agree_with_the_ledger() {
    for form in LONG_FORMS {
        run(form, 8, 1, 1);
        run(form, 8, 5, 2);
        run(form, 24, 3, 3);
        run(form, 120, 9, 4);
        run(form, 4096, 2, 5);
    }
}

/// "A refused call changes nothing in the ledger": who is out, the bytes, the chain and
/// the counts are as if thread 0 had not called.
#[test]
fn calls_by_thread_0_in_between_change_nothing() {
    for form in LONG_FORMS {
        for (size, count, seed) in [(8, 1, 6), (8, 5, 7), (24, 3, 8), (120, 9, 9)] {
            let alone = run(form, size, count, seed);
            assert!(alone.allocates > 20 && alone.frees > 20 && alone.stores > 0);
            assert_eq!(run_with_nobody(form, size, count, seed), alone);
        }
    }
}
