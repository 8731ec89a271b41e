//! Corners that are held to their rule and not to the reference alone: a heap of few
//! buffers, whose first one is granted, hurt, inspected and used.

use combgallop::{BadCode, Fault, Grant, Refusal};
use differential::{Form, Image, Sequence, Shape};

use crate::calls::{Call, Twin};
use crate::counts::{Counts, Met};
use crate::inspect;

/// The address of the first buffer.
pub const BUFFER: u32 = 0x1000;

/// A fresh heap of two buffers.
pub fn fresh(form: Form, size: usize) -> Image {
    fresh_of(form, size, 2)
}

pub fn fresh_of(form: Form, size: usize, count: usize) -> Image {
    let shape = Shape {
        cache: 0x70,
        heap_base: BUFFER,
        record_base: 0x2_0000,
        size,
        count,
    };
    Image::laid_out(form, shape, [0; 5])
}

pub fn allocate(grant: Grant) -> Call {
    Call::Allocate {
        grant,
        uptime: 5000,
        thread: 0x40,
    }
}

pub fn free(grant: Grant) -> Call {
    Call::Free {
        address: BUFFER,
        grant,
        uptime: 6000,
        thread: 0x41,
    }
}

pub fn store(offset: u32, length: usize) -> Call {
    Call::Store {
        address: BUFFER,
        offset,
        bytes: vec![0xbb; length],
    }
}

pub fn show() -> Call {
    Call::Show { address: BUFFER }
}

/// Calls that are refused by what is wrong with the first buffer, whatever it was granted:
/// also where the grant would be another, and the bytes would pass the client's.
fn calls_on_it() -> [Call; 6] {
    [
        show(),
        store(0, 0),
        store(0, 1),
        store(5000, 1),
        free(Grant::Sized(1)),
        free(Grant::Whole),
    ]
}

/// How a call on a granted buffer is refused where its verdict has this number.
fn refused_by(number: u32) -> Option<Refusal> {
    Some(Refusal::Damage(match number {
        27 => Fault::BadSizeCode(BadCode::Remainder),
        28 => Fault::Overrun,
        30 => Fault::BadHeader,
        31 => Fault::BadSizeCode(BadCode::Zero),
        32 => Fault::BadSizeCode(BadCode::Above),
        _ => return None,
    }))
}

/// Runs and counts calls, so that each is compared in every byte.
pub struct Runner {
    seed: u64,
    pub sequence: Sequence,
    pub counts: Counts,
}

impl Runner {
    pub fn new(seed: u64) -> Runner {
        Runner {
            seed,
            sequence: Sequence::new(seed),
            counts: Counts::default(),
        }
    }

    /// Runs calls on an image, and answers what became of it and the last outcome.
    pub fn run(&mut self, image: Image, calls: &[Call]) -> (Image, Result<u32, Refusal>) {
        let mut outcome = Ok(0);
        let origin = image.to_string();
        let mut twin = Twin::new(image, &origin, &mut self.sequence);
        for call in calls {
            outcome = twin.run(call, &mut self.counts, &mut self.sequence);
        }
        (twin.image, outcome)
    }

    /// An image whose first buffer was granted so.
    pub fn granted(&mut self, form: Form, size: usize, grant: Grant) -> Image {
        let (image, outcome) = self.run(fresh(form, size), &[allocate(grant)]);
        assert_eq!(outcome, Ok(BUFFER), "{form:?}, {grant:?} of {size}");
        image
    }

    /// What the first buffer is found to be by inspect.
    pub fn assert_judged(&mut self, image: &Image, verdict: (u32, u32), story: &str) {
        let room = 3 * image.shape.count;
        let found = inspect::compare(image, room, &mut self.sequence, image).expect("findings");
        let found_verdict = found[0].verdict;
        let found_numbers = (found_verdict.number(), found_verdict.value());
        assert_eq!(found_numbers, verdict, "{story}: {image}");
        inspect::note(&mut self.counts, image, Ok(found));
    }

    /// The same by inspect and by the calls on it, which change no byte where they are
    /// refused.
    pub fn assert_found(&mut self, image: &Image, verdict: (u32, u32), story: &str) {
        self.assert_judged(image, verdict, story);
        let Some(refusal) = refused_by(verdict.0) else {
            return;
        };
        for call in calls_on_it() {
            let (after, outcome) = self.run(image.clone(), std::slice::from_ref(&call));
            assert_eq!(outcome, Err(refusal), "{story}, {call:?}: {image}");
            assert_eq!(after.bytes(), image.bytes(), "{story}, {call:?}");
        }
    }

    /// Prints the counts, and fails where one of these verdicts was not met, or a call not
    /// refused by it.
    pub fn finish_refused(&self, forms: &[Form], title: &str, verdicts: &[u8]) {
        let wanted = verdicts.iter().flat_map(|&number| {
            let refused = ["show", "store", "free"].map(|call| Met::Refused(call, 7, number));
            [&[Met::Verdict(number.into())], &refused[..]].concat()
        });
        let wanted: Vec<Met> = wanted.collect();
        self.counts.finish_in(forms, title, self.seed, &wanted);
    }
}
