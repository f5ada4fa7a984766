//! What the delay call refuses, each reason alone and with others, and that 31 comes before 32. Each call is made under
//! guard: a refused one sets no answer and changes no sample.

use crate::common::delay::{gives, refuses};
use nezgrak::delay;

/// Numbers that are no samples, and of which some bits alone would be one.
const OUTSIDE: [i32; 12] =
    [-2_049, 2_048, -2_050, 4_095, 4_096, -4_096, 65_536, 65_537, -65_536, 1 << 24, i32::MIN, i32::MAX];

#[test]
fn lengths_that_differ() {
    for length in [0, 1, 2, 5, 70, 256, 320] {
        let samples = vec![1; length + 300];
        for more in [1, 2, 65, 300] {
            for greatest_lag in [0, 1, 4, 64] {
                refuses(&samples[..length], &samples[..length + more], greatest_lag, 31);
                refuses(&samples[..length + more], &samples[..length], greatest_lag, 31);
            }
        }
    }
}

/// Each recording would do with another of its own length.
#[test]
fn lengths_that_differ_alone() {
    let samples = [1; 100];
    for (one, other) in [(10, 11), (99, 100), (65, 100)] {
        gives(&samples[..one], &samples[..one], 9, 0, one as i64 - 9);
        gives(&samples[..other], &samples[..other], 9, 0, other as i64 - 9);
        refuses(&samples[..one], &samples[..other], 9, 31);
        refuses(&samples[..other], &samples[..one], 9, 31);
    }
}

#[test]
fn no_samples() {
    for greatest_lag in [0, 1, 64, 65, u64::MAX] {
        refuses(&[], &[], greatest_lag, 31);
        refuses(&[], &[1], greatest_lag, 31);
        refuses(&[1], &[], greatest_lag, 31);
    }
}

/// Length less greatest lag would wrap around to a number that is accepted.
#[test]
fn greatest_lags_past_the_length() {
    for length in [1, 10, 200] {
        let samples = vec![1; length];
        for past in [0, 1, 2, 1 << 32, u64::MAX - 500, u64::MAX - length as u64] {
            refuses(&samples, &samples, length as u64 + past, 31);
        }
        refuses(&samples, &samples, u64::MAX, 31);
    }
}

/// At each place of X and of Y, the last ones of Y too, which no score uses.
#[test]
fn a_sample_outside_at_each_place() {
    for (length, greatest_lag) in [(1, 0), (5, 0), (5, 3), (65, 64), (256, 0), (320, 64)] {
        for place in 0..length {
            for outside in OUTSIDE {
                let (sound, mut spoilt) = (vec![1; length], vec![1; length]);
                spoilt[place] = outside;
                refuses(&spoilt, &sound, greatest_lag, 32);
                refuses(&sound, &spoilt, greatest_lag, 32);
            }
        }
    }
}

#[test]
fn a_sample_at_an_end_of_the_range_at_each_place() {
    for (length, greatest_lag) in [(1, 0), (5, 3), (65, 64), (320, 64)] {
        for place in 0..length {
            for end in [-2_048, 2_047] {
                let (zeros, mut samples) = (vec![0; length], vec![0; length]);
                samples[place] = end;
                gives(&samples, &zeros, greatest_lag, 0, 0);
                gives(&zeros, &samples, greatest_lag, 0, 0);
            }
        }
    }
}

#[test]
fn samples_outside_in_both() {
    refuses(&[-2_049, 0, 0], &[0, 0, 2_048], 1, 32);
    refuses(&[2_048; 320], &[-2_049; 320], 64, 32);
}

/// Every part of 31 beside samples that 32 refuses.
#[test]
fn number_31_comes_before_32() {
    let outside = [5_000; 330];
    refuses(&outside[..10], &outside[..11], 2, 31);
    refuses(&outside[..11], &outside[..10], 2, 31);
    refuses(&outside[..100], &outside[..100], 65, 31);
    refuses(&outside[..321], &outside[..321], 64, 31);
    refuses(&outside[..257], &outside[..257], 0, 31);
    refuses(&outside[..10], &outside[..10], 10, 31);
    refuses(&outside[..10], &outside[..10], 11, 31);
    refuses(&outside[..10], &outside[..10], u64::MAX, 31);
    refuses(&[], &outside[..1], 0, 31);
    refuses(&outside[..10], &outside[..10], 9, 32);
}

/// Several parts of 31 at once.
#[test]
fn several_parts_of_31() {
    let samples = [1; 400];
    refuses(&samples[..400], &samples[..399], 65, 31);
    refuses(&samples[..400], &samples[..400], 65, 31);
    refuses(&samples[..20], &samples[..21], 65, 31);
    refuses(&samples[..20], &samples[..21], 20, 31);
}

#[test]
fn what_a_refusal_says() {
    let refused = delay(&[1], &[1, 2], 0).unwrap_err().to_string();
    let expected =
        "refused 31: the lengths of the recordings differ, the greatest lag is above 64, or the length less \
                    the greatest lag is not 1 to 256";
    assert_eq!(refused, expected);
    let refused = delay(&[1], &[2_048], 0).unwrap_err().to_string();
    assert_eq!(refused, "refused 32: a sample of a recording is not from -2,048 to 2,047");
}
