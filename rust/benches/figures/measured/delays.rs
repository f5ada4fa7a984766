//! The delay call beside direct double loops on the same recordings.

use crate::clock::{best_of, Pace};
use crate::contenders::direct_delay::{lag_by_lag, lags_together, narrowed, sample_by_sample, Direct};
use nezgrak::{delay, Delay};
use std::hint::black_box;
use std::time::Duration;

pub const PACE: Pace = Pace { turns: 1000, repeats: 20 };

/// The loops: what each is, and whether it is one over the words as they are lent, to which the call is held.
pub const LOOPS: [(&str, Direct, bool); 4] = [
    ("lag by lag", lag_by_lag, true),
    ("sample by sample", sample_by_sample, true),
    ("16 lags together", lags_together, true),
    ("copied as 16 bits", narrowed, false),
];

pub struct Delays {
    pub samples: usize,
    pub greatest_lag: usize,
    pub call: Duration,
    /// In the order of `LOOPS`.
    pub loops: Vec<Duration>,
    /// The least that the fastest loop over the words / call has to be.
    pub least: Option<f64>,
}

impl Delays {
    pub fn multiply_adds(&self) -> u64 {
        ((self.greatest_lag + 1) * (self.samples - self.greatest_lag)) as u64
    }

    /// The fastest of the loops over the words as they are lent.
    pub fn direct(&self) -> Duration {
        let held = LOOPS.iter().zip(&self.loops).filter(|((_, _, over_words), _)| *over_words);
        *held.map(|(_, time)| time).min().expect("a loop over the words")
    }
}

/// A call of full size has to take less than 1.5 times as long as the fastest loop over the words.
pub fn all() -> [Delays; 3] {
    [measure(320, 64, Some(0.67)), measure(160, 32, None), measure(40, 8, None)]
}

fn measure(samples: usize, greatest_lag: usize, least: Option<f64>) -> Delays {
    eprintln!("measuring the delay of {samples} samples, greatest lag {greatest_lag}");
    let (x, y) = (recording(samples, 1), recording(samples, 2));
    let Delay { lag, score } = delay(&x, &y, greatest_lag as u64).expect("accepted recordings");
    let by_call: Direct = |x, y, greatest_lag| {
        let found = delay(x, y, greatest_lag as u64).expect("accepted recordings");
        (found.lag, found.score)
    };
    let contender = |run: Direct| {
        let (x, y) = (&x, &y);
        move || assert_eq!(run(black_box(x), black_box(y), black_box(greatest_lag)), (lag, score), "the loops differ")
    };
    let all = [by_call].into_iter().chain(LOOPS.map(|(_, run, _)| run));
    let mut times = best_of(PACE, &mut all.map(contender).collect::<Vec<_>>());
    Delays { samples, greatest_lag, call: times.remove(0), loops: times, least }
}

/// Samples of the whole range, the same in every run.
fn recording(samples: usize, seed: u32) -> Vec<i32> {
    let mut state = seed;
    let mut sample = || {
        state = state.wrapping_mul(1_664_525).wrapping_add(1_013_904_223);
        (state >> 20) as i32 - 2_048
    };
    (0..samples).map(|_| sample()).collect()
}
