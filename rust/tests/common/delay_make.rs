//! Random recordings: of any accepted size, with samples that make ties, peaks and the greatest scores, and some of them
//! damaged.

use super::delay::Recordings;
use super::rng::Rng;

const ENDS: [i32; 2] = [-2_048, 2_047];
const OUTSIDE: [i32; 8] = [-2_049, 2_048, -4_096, 4_096, 65_536, -65_536, i32::MIN, i32::MAX];
/// Greatest lags of which some bits alone would pass.
const HUGE: [u64; 6] = [1 << 32, (1 << 32) + 1, 1 << 63, (1 << 63) + 2, u64::MAX - 1, u64::MAX];

pub fn accepted(rng: &mut Rng) -> Recordings {
    let few = 1 + rng.below(8);
    let any = 1 + rng.below(256);
    let terms = rng.pick(&[1, 2, few, few, few, any, 255, 256]);
    let (few, any) = (rng.below(8), rng.below(65));
    let greatest_lag = rng.pick(&[0, 1, few, few, any, 63, 64]);
    recordings(rng, terms + greatest_lag, greatest_lag as u64)
}

/// Two recordings of one length.
fn recordings(rng: &mut Rng, length: usize, greatest_lag: u64) -> Recordings {
    let y = samples(rng, length);
    let x = if rng.once_in(3) { later(rng, &y, greatest_lag as usize) } else { samples(rng, length) };
    Recordings { x, y, greatest_lag }
}

/// Of the whole range, small ones, those at the ends of the range, or one value throughout.
fn samples(rng: &mut Rng, length: usize) -> Vec<i32> {
    let one = rng.pick(&[-2_048, -2_048, -2_048, 2_047, 0, 1]);
    let kind = rng.below(6);
    let mut sample = || match kind {
        0 | 1 => rng.between(-2_048, 2_047),
        2 | 3 => rng.between(-1, 1),
        4 => rng.pick(&ENDS),
        _ => one,
    };
    (0..length).map(|_| sample()).collect()
}

/// The same recording some samples later, after others.
fn later(rng: &mut Rng, y: &[i32], greatest_lag: usize) -> Vec<i32> {
    let lag = rng.below(greatest_lag.min(y.len()) + 1);
    let mut x: Vec<i32> = (0..lag).map(|_| rng.between(-3, 3)).collect();
    x.extend_from_slice(&y[..y.len() - lag]);
    x
}

/// One damage, or none that matters: it is meant for one part of question 31, or for 32.
pub fn spoil(rng: &mut Rng, r: &mut Recordings) {
    match rng.below(10) {
        0 => change_length(rng, r),
        1 => {
            let greatest_lag = 65 + rng.below(6);
            let terms = 1 + rng.below(256);
            *r = recordings(rng, terms + greatest_lag, greatest_lag as u64);
        }
        2 => {
            let length = r.greatest_lag.min(64) as usize + 257 + rng.below(3);
            *r = recordings(rng, length, r.greatest_lag);
        }
        3 => {
            let length = rng.below(r.greatest_lag.min(64) as usize + 1);
            r.x.truncate(length);
            r.y.truncate(length);
        }
        4 => r.greatest_lag = rng.pick(&HUGE),
        5 | 6 => set_sample(rng, &mut r.x, 0),
        7 | 8 => set_sample(rng, &mut r.y, 0),
        _ => {
            let used = r.y.len().saturating_sub(r.greatest_lag.min(64) as usize);
            set_sample(rng, &mut r.y, used);
        }
    }
}

/// One recording gets longer or shorter.
fn change_length(rng: &mut Rng, r: &mut Recordings) {
    let samples = if rng.once_in(2) { &mut r.x } else { &mut r.y };
    match rng.below(4) {
        0 => drop(samples.pop()),
        1 => samples.clear(),
        2 => samples.push(5),
        _ => samples.extend([7; 300]),
    }
}

/// A sample from this place on becomes one that is not accepted.
fn set_sample(rng: &mut Rng, samples: &mut [i32], from: usize) {
    let outside = rng.pick(&OUTSIDE);
    let places = &mut samples[from..];
    if !places.is_empty() {
        places[rng.below(places.len())] = outside;
    }
}
