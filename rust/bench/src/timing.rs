//! Calls timed side by side.

use std::time::Instant;

/// How many samples are taken of each call.
pub const SAMPLES: usize = 301;

/// The least nanoseconds of one sample: a short call is made many times in it, so that
/// reading the clock does not count.
pub const LEAST_SAMPLE: f64 = 50_000.0;

/// What is timed. It hands its answer to `black_box`, so that no call is left out.
pub type Call<'a> = Box<dyn FnMut() + 'a>;

/// Nanoseconds of one call, one number for each sample, in the order they were taken.
pub struct Times(Vec<f64>);

impl Times {
    pub fn median(&self) -> f64 {
        quantile(&self.0, 2)
    }

    /// How many times as long this call took as another: the median of the turns' ratios.
    /// What slows the machine for a while slows both calls of a turn, and leaves their
    /// ratio about as it is.
    pub fn ratio(&self, other: &Times) -> f64 {
        quantile(&self.ratios(other), 2)
    }

    /// The same times, each with so many nanoseconds more.
    pub fn plus(&self, nanoseconds: f64) -> Times {
        Times(self.0.iter().map(|time| time + nanoseconds).collect())
    }

    /// Between which two numbers the middle half of the turns' ratios lies.
    pub fn spread(&self, other: &Times) -> (f64, f64) {
        let ratios = self.ratios(other);
        (quantile(&ratios, 1), quantile(&ratios, 3))
    }

    /// Each sample against the other call's sample of the same turn.
    fn ratios(&self, other: &Times) -> Vec<f64> {
        self.0.iter().zip(&other.0).map(|(a, b)| a / b).collect()
    }
}

/// The first, second or third of the numbers that cut a list in four.
fn quantile(numbers: &[f64], quarter: usize) -> f64 {
    let mut sorted = numbers.to_vec();
    sorted.sort_by(f64::total_cmp);
    sorted[(sorted.len() - 1) * quarter / 4]
}

/// Times calls in turns, one sample of each in a turn, so that whatever slows the
/// machine for a while slows them all.
pub fn race<const N: usize>(mut calls: [Call; N]) -> [Times; N] {
    let repeats = calls.each_mut().map(repeats_in_a_sample);
    let mut times = [const { Vec::new() }; N];
    for _ in 0..SAMPLES {
        for ((call, &repeats), times) in calls.iter_mut().zip(&repeats).zip(&mut times) {
            times.push(sample(call, repeats));
        }
    }
    times.map(Times)
}

/// How often a call is made in a sample. The shortest of three tries counts: a try that
/// was interrupted says nothing.
fn repeats_in_a_sample(call: &mut Call) -> usize {
    let mut repeats = 1;
    loop {
        let tries = [(); 3].map(|()| sample(call, repeats));
        let shortest = tries.into_iter().fold(f64::INFINITY, f64::min);
        if shortest * repeats as f64 >= LEAST_SAMPLE {
            return repeats;
        }
        repeats *= 2;
    }
}

/// The nanoseconds of one call, by so many of them.
fn sample(call: &mut Call, repeats: usize) -> f64 {
    let start = Instant::now();
    for _ in 0..repeats {
        call();
    }
    start.elapsed().as_nanos() as f64 / repeats as f64
}
