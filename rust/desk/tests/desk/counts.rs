//! What a run met, so that nothing that the command can say goes untested unnoticed.

use std::collections::BTreeMap;

use reference::{Order, Profile};

/// How often each thing was met, by where: a profile and an order, or a profile.
#[derive(Default)]
pub struct Counts(BTreeMap<(String, String), usize>);

pub fn profile_name(profile: Profile) -> &'static str {
    match profile {
        Profile::Kernel => "kernel",
        Profile::Userland => "userland",
    }
}

pub fn order_name(order: Order) -> &'static str {
    match order {
        Order::HighFirst => "high_first",
        Order::LowFirst => "low_first",
    }
}

/// The places where a thing of an image that is not refused can be met.
pub const KERNEL: [&str; 2] = ["kernel high_first", "kernel low_first"];
pub const USERLAND: [&str; 2] = ["userland high_first", "userland low_first"];

/// The places of a refusal: a sheet that is refused has no order.
pub const PROFILES: [&str; 2] = ["kernel", "userland"];

impl Counts {
    pub fn note(&mut self, place: &str, met: impl Into<String>) {
        let key = (met.into(), String::from(place));
        *self.0.entry(key).or_default() += 1;
    }

    pub fn print(&self, title: &str, seed: u64) {
        println!("{title}, seed {seed:#x}");
        for ((met, place), count) in &self.0 {
            println!("  {met}, {place}: {count}");
        }
    }

    /// Fails where a thing was not met in each of these places.
    pub fn want<M: AsRef<str>>(&self, places: &[&str], wanted: &[M]) {
        for met in wanted.iter().map(AsRef::as_ref) {
            for place in places {
                let key = (String::from(met), String::from(*place));
                assert!(self.0.contains_key(&key), "{met} was never met, {place}");
            }
        }
    }
}
