//! The delay call at its limits: every length and greatest lag, the greatest and the least scores, the ends of the samples.

use crate::common::delay::{check, gives, refuses, Recordings};
use crate::common::rng::Rng;

/// Lengths at which some greatest lag leaves 0, 1, 256 or 257 terms.
fn lengths() -> impl Iterator<Item = usize> {
    (0..=70).chain(254..=260).chain(317..=323).chain([400, 1_000, 70_000])
}

/// Greatest lags from 0 past every length above, and such that have bits an accepted one has, or wrap around to one.
fn greatest_lags() -> impl Iterator<Item = u64> {
    let around = |power: u32| [0, 1, 5, 64].map(|more| (1u64 << power) + more);
    let wrapping = (0..4).chain([64, 255, 256]).map(|less| u64::MAX - less);
    (0..=72).chain([8, 16, 31, 32, 48, 63].into_iter().flat_map(around)).chain(wrapping)
}

#[test]
fn every_length_with_every_greatest_lag() {
    let mut rng = Rng::new(0xde1a_0004);
    let mut accepted = 0;
    for length in lengths() {
        let [x, y] = [(); 2].map(|()| (0..length).map(|_| rng.between(-2_048, 2_047)).collect::<Vec<i32>>());
        let mut recordings = Recordings { x, y, greatest_lag: 0 };
        for greatest_lag in greatest_lags() {
            recordings.greatest_lag = greatest_lag;
            accepted += usize::from(check(&recordings).is_ok());
        }
    }
    let fits = |length: usize, lag: usize| (1..=256).contains(&(length as i64 - lag as i64));
    let fitting = lengths().map(|length| (0..=64).filter(|lag| fits(length, *lag)).count());
    assert_eq!(accepted, fitting.sum::<usize>());
}

/// 256 × 2,048 × 2,048 is 2^30. No score is greater.
#[test]
fn the_greatest_score() {
    let (low, high) = ([-2_048; 320], [2_047; 320]);
    gives(&low, &low, 64, 0, 1 << 30);
    gives(&high, &high, 64, 0, 256 * 2_047 * 2_047);
    gives(&low[64..], &low[64..], 0, 0, 1 << 30);
    let mut x = low;
    x[..64].fill(-2_047);
    gives(&x, &low, 64, 64, 1 << 30);
}

#[test]
fn the_least_score() {
    let (low, high) = ([-2_048; 320], [2_047; 320]);
    gives(&low, &high, 64, 0, -256 * 2_048 * 2_047);
    gives(&high, &low, 64, 0, -256 * 2_048 * 2_047);
    let mut x = low;
    x[319] = -2_047;
    gives(&x, &high, 64, 64, -256 * 2_048 * 2_047 + 2_047);
}

/// From the greatest score to the least one, in one call.
#[test]
fn scores_of_both_signs() {
    let mut x = [2_047; 320];
    x[..256].fill(-2_048);
    let score = |lag: i64| -2_048 * (-2_048 * (256 - lag) + 2_047 * lag);
    gives(&x, &[-2_048; 320], 64, 0, score(0));
    gives(&x, &[2_047; 320], 64, 64, 2_047 * (-2_048 * 192 + 2_047 * 64));
    x.reverse();
    gives(&x, &[-2_048; 320], 64, 64, score(0));
    gives(&x, &[2_047; 320], 64, 0, 2_047 * (-2_048 * 192 + 2_047 * 64));
}

#[test]
fn up_to_256_terms() {
    for (length, greatest_lag) in [(256, 0), (257, 1), (319, 63), (320, 64)] {
        let samples = vec![1; length + 1];
        gives(&samples[1..], &samples[1..], greatest_lag, 0, 256);
        refuses(&samples, &samples, greatest_lag, 31);
    }
}

#[test]
fn up_to_a_greatest_lag_of_64() {
    for terms in [1, 2, 100, 255, 256] {
        let samples = vec![1; terms + 65];
        gives(&samples[1..], &samples[1..], 64, 0, terms as i64);
        refuses(&samples, &samples, 65, 31);
    }
}

#[test]
fn at_least_one_term() {
    for greatest_lag in 0..=64 {
        let mut x = vec![3; greatest_lag + 1];
        gives(&x, &x, greatest_lag as u64, 0, 9);
        x[greatest_lag] = 4;
        gives(&x, &vec![3; greatest_lag + 1], greatest_lag as u64, greatest_lag as u64, 12);
        refuses(&x[1..], &x[1..], greatest_lag as u64, 31);
    }
}

/// Random samples from the ends of the range only, at full length.
#[test]
fn samples_at_both_ends() {
    let mut rng = Rng::new(0xde1a_0005);
    for _ in 0..300 {
        let [x, y] = [(); 2].map(|()| (0..320).map(|_| rng.pick(&[-2_048, 2_047])).collect::<Vec<i32>>());
        assert!(check(&Recordings { x, y, greatest_lag: 64 }).is_ok());
    }
}
