//! What question 35 costs: calls with budget 0, which in fixed point look at each word of A and B, and run no tile.

use crate::clock::{best_times, Pace};
use crate::contraction::{Contraction, Tensor, SHIFT, TILE};
use crate::shapes;
use nezgrak::Progress;
use std::time::Duration;

pub const PACE: Pace = Pace { turns: 200, repeats: 2 };
const SIZE: u32 = 512;

pub struct Asked {
    pub contraction: Contraction,
    pub wrapping: Duration,
    pub fixed: Duration,
}

impl Asked {
    /// How many words are looked at. No two entries share one.
    pub fn words(&self) -> u64 {
        let entries = |tensor: &Tensor| tensor.extents.iter().map(|extent| u64::from(*extent)).product::<u64>();
        entries(&self.contraction.a) + entries(&self.contraction.b)
    }

    /// The nanoseconds that a word adds to a call.
    pub fn nanos_each(&self) -> f64 {
        self.fixed.saturating_sub(self.wrapping).as_secs_f64() * 1e9 / self.words() as f64
    }
}

/// A matrix times a vector: the matrix has all words but a few.
pub fn all() -> [Asked; 2] {
    eprintln!("measuring question 35");
    [shapes::matrices(SIZE, 1, SIZE), shapes::rows_times_vector(SIZE)].map(measure)
}

fn measure(contraction: Contraction) -> Asked {
    let contraction = contraction.in_16_bits();
    let (lent, none) = (contraction.lent(), Ok(Progress { done: 0, complete: false }));
    let (mut d, mut work) = (contraction.d.words.clone(), vec![0; TILE.work_words()]);
    let (mut d_fixed, mut work_fixed, mut sums) = (d.clone(), work.clone(), vec![0; d.len()]);
    let mut wrapping = || lent.run_tiles(&mut d, TILE, &mut work, 0, 0);
    let mut fixed = || lent.run_tiles_fixed(&mut d_fixed, SHIFT, TILE, &mut work_fixed, &mut sums, 0, 0);
    let contenders: [&mut dyn FnMut(); 2] = [&mut || assert_eq!(wrapping(), none, "a call of budget 0"), &mut || {
        assert_eq!(fixed(), none, "a call of budget 0 in fixed point")
    }];
    let [wrapping, fixed] = best_times(PACE, contenders);
    Asked { contraction, wrapping, fixed }
}
