//! One call with its arguments, as the reference makes it and as the library does.

use combgallop::{Answer, Grant, Refusal};
use differential::{Form, Image, Shape};
use reference::{Order, Profile};

use crate::expected::{expected_order, expected_profile};
use crate::lent::Lent;

/// The arguments of a lay out, lawful or not.
#[derive(Clone, Copy, Debug)]
pub struct Numbers {
    pub profile: Profile,
    pub order: Order,
    pub cache: u32,
    pub heap_base: u32,
    pub record_base: u32,
    pub size: u32,
    pub count: u32,
}

impl Numbers {
    pub fn new(form: Form, shape: Shape) -> Numbers {
        Numbers {
            profile: form.profile(),
            order: form.order(),
            cache: shape.cache,
            heap_base: shape.heap_base,
            record_base: shape.record_base,
            size: shape.size as u32,
            count: shape.count as u32,
        }
    }

    /// The form of what is laid out.
    pub fn form(&self) -> Form {
        Form::laid_out(self.profile, self.order)
    }
}

impl From<Numbers> for Shape {
    fn from(numbers: Numbers) -> Shape {
        Shape {
            cache: numbers.cache,
            heap_base: numbers.heap_base,
            record_base: numbers.record_base,
            size: numbers.size as usize,
            count: numbers.count as usize,
        }
    }
}

/// What an accepted call answers: its value, and the start of the client's bytes in their
/// buffer, which is 0 but for a show.
#[derive(Clone, Copy)]
pub struct Accepted {
    pub value: u32,
    pub start: u32,
}

impl Accepted {
    fn new(value: u32) -> Accepted {
        Accepted { value, start: 0 }
    }

    /// One that has nothing to say.
    fn done(_: ()) -> Accepted {
        Accepted::new(0)
    }
}

#[derive(Clone, Debug)]
pub enum Call {
    LayOut(Numbers),
    Allocate {
        grant: Grant,
        uptime: u32,
        thread: u32,
    },
    Free {
        address: u32,
        grant: Grant,
        uptime: u32,
        thread: u32,
    },
    Store {
        address: u32,
        offset: u32,
        bytes: Vec<u8>,
    },
    Show {
        address: u32,
    },
}

impl Call {
    pub fn name(&self) -> &'static str {
        match self {
            Call::LayOut(_) => "lay out",
            Call::Allocate { .. } => "allocate",
            Call::Free { .. } => "free",
            Call::Store { .. } => "store",
            Call::Show { .. } => "show",
        }
    }

    /// The same call of another thread, where it is one of thread 0.
    pub fn by_somebody(&self) -> Option<Call> {
        let mut call = self.clone();
        match &mut call {
            Call::Allocate { thread, .. } | Call::Free { thread, .. } if *thread == 0 => {
                *thread = 1;
                Some(call)
            }
            _ => None,
        }
    }

    /// What a store is lent to write; every other call is lent nothing.
    pub fn bytes(&self) -> &[u8] {
        match self {
            Call::Store { bytes, .. } => bytes,
            _ => &[],
        }
    }

    /// The profile that the call names: a lay out its own, any other the image's.
    pub fn profile(&self, image: &Image) -> Profile {
        match self {
            Call::LayOut(numbers) => numbers.profile,
            _ => image.profile(),
        }
    }

    /// The reference's answer, which the library has to give.
    pub fn by_reference(&self, image: &mut Image) -> Result<Accepted, reference::Refusal> {
        let profile = self.profile(image);
        let (sheet, heap, records) = (&mut image.sheet, &mut image.heap, &mut image.records);
        match *self {
            Call::LayOut(numbers) => reference::lay_out(
                profile,
                numbers.order,
                numbers.cache,
                numbers.heap_base,
                numbers.record_base,
                numbers.size,
                numbers.count,
                sheet,
                heap,
                records,
            )
            .map(Accepted::done),
            Call::Allocate {
                grant,
                uptime,
                thread,
            } => {
                let grant = of_reference(grant);
                reference::allocate(profile, sheet, heap, records, grant, uptime, thread)
                    .map(Accepted::new)
            }
            Call::Free {
                address,
                grant,
                uptime,
                thread,
            } => {
                let grant = of_reference(grant);
                reference::free(
                    profile, sheet, heap, records, address, grant, uptime, thread,
                )
                .map(Accepted::done)
            }
            Call::Store {
                address,
                offset,
                ref bytes,
            } => reference::store(profile, sheet, heap, records, address, offset, bytes)
                .map(Accepted::done),
            Call::Show { address } => {
                reference::show(profile, sheet, heap, records, address).map(|shown| Accepted {
                    value: shown.bytes.len() as u32,
                    start: shown.offset,
                })
            }
        }
    }

    /// The library's answer, all 64 bits of it. `bytes` are what a store is lent.
    pub fn answer(&self, profile: Profile, lent: &mut Lent, bytes: &[u8]) -> Answer {
        let profile = expected_profile(profile);
        let (sheet, heap, records) = lent.areas();
        match *self {
            Call::LayOut(numbers) => combgallop::lay_out_answer(
                profile,
                expected_order(numbers.order),
                numbers.cache,
                numbers.heap_base,
                numbers.record_base,
                numbers.size,
                numbers.count,
                sheet,
                heap,
                records,
            ),
            Call::Allocate {
                grant,
                uptime,
                thread,
            } => combgallop::allocate_answer(profile, sheet, heap, records, grant, uptime, thread),
            Call::Free {
                address,
                grant,
                uptime,
                thread,
            } => combgallop::free_answer(
                profile, sheet, heap, records, address, grant, uptime, thread,
            ),
            Call::Store {
                address, offset, ..
            } => combgallop::store_answer(profile, sheet, heap, records, address, offset, bytes),
            Call::Show { address } => {
                combgallop::show_answer(profile, sheet, heap, records, address)
            }
        }
    }

    /// The library's answer, taken apart.
    pub fn outcome(&self, profile: Profile, lent: &mut Lent, bytes: &[u8]) -> Result<u32, Refusal> {
        let profile = expected_profile(profile);
        let (sheet, heap, records) = lent.areas();
        match *self {
            Call::LayOut(numbers) => combgallop::lay_out(
                profile,
                expected_order(numbers.order),
                numbers.cache,
                numbers.heap_base,
                numbers.record_base,
                numbers.size,
                numbers.count,
                sheet,
                heap,
                records,
            )
            .map(|()| 0),
            Call::Allocate {
                grant,
                uptime,
                thread,
            } => combgallop::allocate(profile, sheet, heap, records, grant, uptime, thread),
            Call::Free {
                address,
                grant,
                uptime,
                thread,
            } => combgallop::free(
                profile, sheet, heap, records, address, grant, uptime, thread,
            )
            .map(|()| 0),
            Call::Store {
                address, offset, ..
            } => {
                combgallop::store(profile, sheet, heap, records, address, offset, bytes).map(|()| 0)
            }
            // Which part of the heap is shown is compared apart.
            Call::Show { address } => {
                combgallop::show_answer(profile, sheet, heap, records, address).value()
            }
        }
    }
}

/// A grant, as the reference's type has it.
pub fn of_reference(grant: Grant) -> reference::Grant {
    match grant {
        Grant::Whole => reference::Grant::Whole,
        Grant::Sized(size) => reference::Grant::Sized(size),
    }
}

/// A grant of the reference's, as the library's type has it.
pub fn of_library(grant: reference::Grant) -> Grant {
    match grant {
        reference::Grant::Whole => Grant::Whole,
        reference::Grant::Sized(size) => Grant::Sized(size),
    }
}
