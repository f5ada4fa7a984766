//! The shortest time of several turns.

use std::fmt;
use std::time::{Duration, Instant};

/// How often each contender runs: `turns` times in turn with the others, and at each turn `repeats` times in a row.
#[derive(Clone, Copy)]
pub struct Pace {
    pub turns: u32,
    pub repeats: u32,
}

impl fmt::Display for Pace {
    fn fmt(&self, f: &mut fmt::Formatter<'_>) -> fmt::Result {
        write!(f, "{}", self.turns)?;
        if self.repeats > 1 {
            write!(f, " × {}", self.repeats)?;
        }
        Ok(())
    }
}

/// The best mean time that each had at one of its turns. All run equally often.
pub fn best_times<const N: usize>(pace: Pace, mut contenders: [&mut dyn FnMut(); N]) -> [Duration; N] {
    best_of(pace, &mut contenders).try_into().expect("a time for each contender")
}

/// The same for any number of contenders.
pub fn best_of(pace: Pace, contenders: &mut [impl FnMut()]) -> Vec<Duration> {
    let mut best = vec![Duration::MAX; contenders.len()];
    for _ in 0..pace.turns {
        for (run, best) in contenders.iter_mut().zip(&mut best) {
            *best = mean_time(pace.repeats, run).min(*best);
        }
    }
    best
}

/// By the wall clock: what else the machine does can make a time longer, never shorter, and the best turn counts. A time
/// of zero would make any ratio look met, so it ends the run.
fn mean_time(repeats: u32, run: &mut impl FnMut()) -> Duration {
    let start = Instant::now();
    (0..repeats).for_each(|_| run());
    let mean = start.elapsed() / repeats;
    assert!(!mean.is_zero(), "the clock did not move during a run");
    mean
}
