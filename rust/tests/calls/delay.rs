//! What the delay call finds: scores worked out by hand, every pair of short recordings, ties, and which samples count.

use crate::common::delay::{check, gives, run_safe, Recordings};
use crate::common::rng::Rng;
use nezgrak::{delay, Delay};

/// The recording with this number, of samples -2 to 2: its digits to the base 5.
fn recording(number: usize, length: usize) -> Vec<i32> {
    (0..length as u32).map(|place| (number / 5usize.pow(place) % 5) as i32 - 2).collect()
}

/// Two terms of three lags: -1 + 6, -2 + 9 and -3 + 12.
#[test]
fn scores_worked_out_by_hand() {
    gives(&[1, 2, 3, 4], &[-1, 3, 1_000, -1_000], 2, 2, 9);
    gives(&[1, 2, 3, 4], &[-1, 3, 1_000, -1_000], 1, 1, -2 + 9 + 4_000);
    gives(&[4, 3, 2, 1], &[-1, 3, 0, 0], 2, 0, 5);
    gives(&[1, 4, -2, 5], &[-1, 3, 0, 0], 2, 2, 17);
    gives(&[2, 1, 4, 3], &[-1, 3, 0, 0], 2, 1, 11);
}

#[test]
fn one_sample() {
    gives(&[3], &[5], 0, 0, 15);
    gives(&[-3], &[5], 0, 0, -15);
    gives(&[-3], &[-5], 0, 0, 15);
    gives(&[0], &[5], 0, 0, 0);
}

/// The greatest of negative scores is the one nearest to 0.
#[test]
fn negative_scores() {
    gives(&[-5, -2, -9], &[3, 0, 0], 2, 1, -6);
    gives(&[-1, -2, -3], &[1, 1, 1], 1, 0, -3);
    gives(&[1, 1, 1], &[-1, -1, -1], 1, 0, -2);
}

/// The recordings are not alike in their parts: X is the later one.
#[test]
fn recordings_exchanged() {
    let (early, late) = ([7, -3, 2, 0, 0, 0], [0, 0, 7, -3, 2, 0]);
    gives(&late, &early, 3, 2, 49 + 9 + 4);
    gives(&early, &late, 3, 0, 14);
}

#[test]
fn a_recording_with_itself() {
    let x = [5, -3, 8, 1, 0, -2];
    assert_eq!(delay(&x, &x, 3), Ok(Delay { lag: 0, score: 25 + 9 + 64 }));
    assert_eq!(delay(&x[1..], &x[..5], 2), Ok(Delay { lag: 1, score: 40 - 3 }));
}

/// All pairs of up to three samples from -2 to 2, with every greatest lag around them.
#[test]
fn every_pair_of_up_to_three_samples() {
    let mut pairs = 0;
    for length in 0..=3 {
        for number in 0..25usize.pow(length) {
            let (x, y) = (number % 5usize.pow(length), number / 5usize.pow(length));
            for greatest_lag in [0, 1, 2, 3, 4, 64, 65, u64::MAX] {
                let [x, y] = [x, y].map(|number| recording(number, length as usize));
                check(&Recordings { x, y, greatest_lag }).ok();
            }
            pairs += 1;
        }
    }
    assert_eq!(pairs, 1 + 25 + 625 + 15_625);
}

/// The same for four samples, of which the safe call is asked: there are 390,625 pairs for each greatest lag.
#[test]
fn every_pair_of_four_samples() {
    let all: Vec<Vec<i32>> = (0..625).map(|number| recording(number, 4)).collect();
    let mut recordings = Recordings::new(&[0; 4], &[0; 4], 0);
    for x in &all {
        recordings.x.copy_from_slice(x);
        for y in &all {
            recordings.y.copy_from_slice(y);
            for greatest_lag in 0..4 {
                recordings.greatest_lag = greatest_lag;
                assert_eq!(run_safe(&recordings), recordings.expected(), "the delay of {recordings:?}");
            }
        }
    }
}

/// A single sound, which X has some samples later: each lag is found, the greatest one too.
#[test]
fn every_lag_is_found() {
    for (terms, greatest_lag) in [(1, 0), (1, 1), (1, 64), (2, 3), (5, 8), (100, 63), (255, 64), (256, 64)] {
        let length = terms + greatest_lag;
        for lag in 0..=greatest_lag {
            for place in [0, terms / 2, terms - 1] {
                let (mut x, mut y) = (vec![0; length], vec![0; length]);
                (x[place + lag], y[place]) = (-9, -4);
                gives(&x, &y, greatest_lag as u64, lag as u64, 36);
            }
        }
    }
}

/// A sum runs over as many terms for each lag: the last samples of Y don't count, and X is read up to its end.
#[test]
fn the_last_samples_of_y_are_not_used() {
    let (x, mut y) = ([1, 1, 1, 1, 2], [1, 1, 1, 2_047, 2_047]);
    gives(&x, &y, 2, 2, 4);
    y[3] = -2_048;
    gives(&x, &y, 2, 2, 4);
    gives(&x, &y, 1, 0, 3 - 2_048);
    gives(&x, &y, 0, 0, 3 - 2_048 + 2 * 2_047);
}

/// The smallest of the lags with the greatest score answers.
#[test]
fn ties() {
    gives(&[0; 9], &[0; 9], 4, 0, 0);
    gives(&[5; 9], &[2; 9], 4, 0, 50);
    gives(&[-5; 9], &[2; 9], 4, 0, -50);
    gives(&[0, 3, 0, 3, 0, 3], &[1, 0, 0, 0, 0, 0], 5, 1, 3);
    gives(&[-7, 0, 3, 3, 3, 2], &[1, 0, 0, 0, 0, 0], 5, 2, 3);
    gives(&[1, 2, 0, 4, 4], &[1, 0, 0, 0, 0], 4, 3, 4);
    gives(&[4, 2, 0, 1, 4], &[1, 0, 0, 0, 0], 4, 0, 4);
}

/// A recording that repeats itself after some samples ties at each repetition.
#[test]
fn ties_of_a_recording_that_repeats() {
    let mut rng = Rng::new(0xde1a_0003);
    for period in 1..=32usize {
        let sound: Vec<i32> = (0..period).map(|_| rng.between(-2_048, 2_047)).collect();
        let y: Vec<i32> = sound.iter().cycle().take(320).copied().collect();
        let first = rng.below(period);
        let x: Vec<i32> = y.iter().cycle().skip(period - first).take(320).copied().collect();
        let recordings = Recordings::new(&x, &y[..], 64);
        let (lag, score) = check(&recordings).expect("accepted recordings");
        let tied = recordings.scores().iter().filter(|other| **other == i128::from(score)).count();
        assert!(lag < period as u64 && tied >= 64 / period, "{tied} lags tie at a period of {period}");
    }
}
