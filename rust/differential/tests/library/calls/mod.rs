//! Lay out, allocate, free, store and show: both programs make the same calls, and
//! after each one the answers and every lent byte are compared.

mod call;
mod draw;
mod dump;
mod hurt;
mod lay_out;
mod ledger;
mod lists;
mod twin;

use crate::counts::Met;

pub use call::{Call, Numbers};
pub use draw::some_call;
pub use twin::Twin;

/// The refusals that every call can give, by the rules, with their details.
const OPENING: [(u8, u8); 3] = [(1, 0), (2, 0), (3, 0)];

/// What allocate and free can give next.
const NOBODY: (u8, u8) = (13, 0);

/// What allocate can give besides.
const TAKING: [(u8, u8); 8] = [
    (6, 0),
    (5, 0),
    (7, 29),
    (7, 20),
    (7, 21),
    (7, 24),
    (7, 25),
    (7, 26),
];

/// What free, store and show can give besides.
const HOLDING: [(u8, u8); 7] = [(4, 0), (7, 21), (8, 0), (7, 27), (7, 31), (7, 32), (7, 28)];

/// All that a call can answer, by the rules of both profiles.
fn answers(call: &'static str) -> Vec<Met> {
    let own: &[&[(u8, u8)]] = match call {
        "lay out" => &[],
        "allocate" => &[&[NOBODY], &TAKING],
        "free" => &[&[NOBODY], &HOLDING, &[(9, 0)]],
        "store" => &[&HOLDING, &[(10, 0)]],
        "show" => &[&HOLDING],
        _ => panic!("there is no call {call}"),
    };
    let refused = OPENING.iter().chain(own.iter().copied().flatten());
    let refused = refused.map(|&(number, detail)| Met::Refused(call, number, detail));
    [Met::Accepted(call)].into_iter().chain(refused).collect()
}

/// Calls of thread 0, by all that another thread is answered.
fn nobody(call: &'static str) -> Vec<Met> {
    let by_another = answers(call).into_iter().filter_map(|met| match met {
        Met::Accepted(call) => Some(Met::Nobody(call, 0, 0)),
        Met::Refused(_, number, detail) if (number, detail) == NOBODY => None,
        Met::Refused(call, number, detail) => Some(Met::Nobody(call, number, detail)),
        _ => None,
    });
    by_another.collect()
}

/// What the calls on a granted buffer can answer besides under the userland profile.
fn header_answers() -> Vec<Met> {
    let calls = ["free", "store", "show"];
    calls.map(|call| Met::Refused(call, 7, 30)).to_vec()
}
