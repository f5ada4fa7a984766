//! Fixed point by hand: signed words, rounding at every shift, the ends, and layouts of all sorts, by both engines.

use crate::common::broken::sound_with_c;
use crate::common::case::{Case, Tensor};
use crate::common::fixed_both::{gives, gives_signed};
use crate::common::fixed_call::{check_plain, check_run};
use crate::common::fixed_refusing::sound_request;

fn words(numbers: &[i32]) -> Vec<u32> {
    numbers.iter().map(|number| *number as u32).collect()
}

/// The dot product of these, onto an old word.
fn dot(a: &[i32], b: &[i32], old: i32) -> Case {
    let vector = |numbers: &[i32]| Tensor::new("k", &[numbers.len() as u32], &[1], 0, &words(numbers));
    Case { a: vector(a), b: vector(b), c: None, d: Tensor::scalar(old as u32), alpha: 3, beta: 0 }
}

#[test]
fn words_are_signed() {
    gives_signed(&dot(&[-3], &[5], 7), 0, &[-8]);
    gives_signed(&dot(&[3], &[-5], 7), 0, &[-8]);
    gives_signed(&dot(&[-3], &[-5], -7), 0, &[8]);
    gives_signed(&dot(&[-3, 4, 1], &[5, -6, -1], -7), 0, &[-47]);
}

/// (2n + 1) × 2^(shift - 1) is half way between n and n + 1.
#[test]
fn ties_of_both_signs_at_every_shift() {
    for shift in 1..=15 {
        for n in -7_i32..=7 {
            let even = n + n.rem_euclid(2);
            for old in [0, 1, -1, 100] {
                gives_signed(&dot(&[2 * n + 1], &[1 << (shift - 1)], old), shift, &[old + even]);
            }
        }
    }
}

/// One more or less than half a unit, and than none: the nearer of both neighbours.
#[test]
fn beside_ties_at_every_shift() {
    for shift in 2..=15 {
        for n in -3..=3 {
            let half = 1 << (shift - 1);
            let beside = |more: &[i32]| {
                dot(&[&[n, n][..], more].concat(), &[&[half, half][..], &[1, 1][..more.len()]].concat(), 5)
            };
            gives_signed(&beside(&[half, 1]), shift, &[5 + n + 1]);
            gives_signed(&beside(&[half, -1]), shift, &[5 + n]);
            gives_signed(&beside(&[1]), shift, &[5 + n]);
            gives_signed(&beside(&[-1]), shift, &[5 + n]);
        }
    }
}

/// With shift 0 the sum is added as it is, and with any shift a multiple of the unit is.
#[test]
fn nothing_to_round() {
    for n in [-32_768, -3, -1, 0, 1, 2, 32_767] {
        gives_signed(&dot(&[n], &[1], 40), 0, &[40 + n]);
        for shift in 0..=14 {
            gives_signed(&dot(&[n], &[1 << shift], -9), shift, &[-9 + n]);
        }
    }
}

/// Only the sum is divided and rounded: an odd old word changes no tie, and no old word is scaled.
#[test]
fn the_old_word_is_not_divided() {
    for old in [-3, -2, -1, 0, 1, 2, 3, 32_768, i32::MIN + 4, i32::MAX - 4] {
        gives_signed(&dot(&[1], &[1], old), 1, &[old]);
        gives_signed(&dot(&[3], &[1], old), 1, &[old + 2]);
        gives_signed(&dot(&[-1], &[1], old), 1, &[old]);
        gives_signed(&dot(&[-3], &[1], old), 1, &[old - 2]);
        gives_signed(&dot(&[0], &[1], old), 15, &[old]);
    }
}

#[test]
fn held_at_both_ends() {
    for (old, more, word) in [
        (i32::MAX, 1, i32::MAX),
        (i32::MAX, 0, i32::MAX),
        (i32::MAX, -1, i32::MAX - 1),
        (i32::MAX - 1, 1, i32::MAX),
        (i32::MAX - 1, 2, i32::MAX),
        (i32::MIN, -1, i32::MIN),
        (i32::MIN, 0, i32::MIN),
        (i32::MIN, 1, i32::MIN + 1),
        (i32::MIN + 1, -1, i32::MIN),
        (i32::MIN + 1, -2, i32::MIN),
        (i32::MAX - 40_000, 32_767, i32::MAX - 7_233),
    ] {
        gives_signed(&dot(&[more], &[1], old), 0, &[word]);
        gives_signed(&dot(&[more], &[4_096], old), 12, &[word]);
    }
}

/// A half at the ends: rounded first, to the even neighbour, then added and held.
#[test]
fn ties_at_the_ends() {
    gives_signed(&dot(&[1], &[1], i32::MAX), 1, &[i32::MAX]);
    gives_signed(&dot(&[3], &[1], i32::MAX - 1), 1, &[i32::MAX]);
    gives_signed(&dot(&[-1], &[1], i32::MIN), 1, &[i32::MIN]);
    gives_signed(&dot(&[-3], &[1], i32::MIN + 1), 1, &[i32::MIN]);
    gives_signed(&dot(&[-3], &[1], i32::MIN + 2), 1, &[i32::MIN]);
    gives_signed(&dot(&[3], &[1], i32::MAX - 2), 1, &[i32::MAX]);
}

/// The rounded part is not held by itself: -2^31 and 2^32 - 1 give 2^31 - 1, and 2^31 - 1 and -(2^32 - 1) give -2^31.
#[test]
fn only_the_whole_is_held() {
    let (least, most) = (-32_768, 32_767);
    let up = [[least; 4], [1, 0, 0, 0]].concat();
    gives_signed(&dot(&up, &[[least; 4], [-1, 0, 0, 0]].concat(), i32::MIN), 0, &[i32::MAX]);
    gives_signed(&dot(&up, &[[least; 4], [-2, 0, 0, 0]].concat(), i32::MIN), 0, &[i32::MAX - 1]);
    gives_signed(&dot(&up, &[[least; 4], [0, 0, 0, 0]].concat(), i32::MIN), 0, &[i32::MAX]);
    gives_signed(&dot(&[up.clone(), up].concat(), &[[least; 4], [1; 4]].concat().repeat(2), i32::MIN), 1, &[i32::MAX]);
    let down = [[least; 4], [-most; 4]].concat();
    gives_signed(
        &dot(&[down.clone(), vec![-3]].concat(), &[[most; 4].to_vec(), vec![1; 5]].concat(), i32::MAX),
        0,
        &[i32::MIN],
    );
    gives_signed(
        &dot(&[down.clone(), vec![-2]].concat(), &[[most; 4].to_vec(), vec![1; 5]].concat(), i32::MAX),
        0,
        &[i32::MIN + 1],
    );
    gives_signed(
        &dot(&[down, vec![-9]].concat(), &[[most; 4].to_vec(), vec![1; 5]].concat(), i32::MAX),
        0,
        &[i32::MIN],
    );
}

/// alpha and beta count as 1, and a C that is named is neither read nor asked about.
#[test]
fn alpha_beta_and_c_mean_nothing() {
    let sound = sound_with_c();
    let plain = check_plain(&Case { alpha: 1, beta: 1, c: None, ..sound.clone() }, 3);
    assert_eq!(plain.answer, 0);
    let unreadable = Tensor::new("?", &[7, 7], &[], u32::MAX, &[]);
    for c in [None, sound.c.clone(), Some(Tensor::scalar(9)), Some(unreadable)] {
        for (alpha, beta) in [(0, 0), (1, 0), (7, u32::MAX)] {
            gives(&Case { alpha, beta, c: c.clone(), ..sound.clone() }, 3, &plain.words);
        }
    }
}

/// D with gaps, words before and after, and strides that count down: only the entries change.
#[test]
fn gaps_and_negative_strides() {
    let a = Tensor::new("ik", &[2, 3], &[-1, 2], 1, &words(&[1, 2, 3, 4, 5, 6]));
    let b = Tensor::new("kj", &[3, 2], &[-2, 1], 4, &words(&[1, 0, 2, 0, 1, -1]));
    let d = Tensor::new("ij", &[2, 2], &[-3, 7], 5, &words(&[-7; 14]));
    let mut after = [-7; 14];
    // A(i,k) is 2 4 6 for i 0 and 1 3 5 for i 1; B(k,j) is 1 2 1 for j 0 and -1 0 0 for j 1.
    (after[5], after[2], after[12], after[9]) = (-7 + 8, -7 + 6, -7 - 1, -7);
    gives_signed(&Case { a, b, c: None, d, alpha: 2, beta: 2 }, 1, &after);
}

/// The diagonal of A, and of D, whose other words keep their values.
#[test]
fn repeated_letters() {
    let a = Tensor::new("ii", &[2, 2], &[1, 2], 0, &words(&[5, 99_999, -99_999, -3]));
    let trace = Case { a: a.clone(), b: Tensor::scalar(10), c: None, d: Tensor::scalar(1), alpha: 1, beta: 1 };
    gives_signed(&trace, 2, &[1 + 5]);
    let d = Tensor::new("ii", &[2, 2], &[1, 2], 0, &words(&[1, 2, 3, 4]));
    gives_signed(&Case { d, ..trace }, 2, &[1 + 12, 2, 3, 4 - 8]);
}

/// A label that only D has, one that only A has, one that only B has, and one word for all entries by a stride of 0.
#[test]
fn broadcasts() {
    let a = Tensor::new("k", &[3], &[1], 0, &words(&[1, 2, -6]));
    let b = Tensor::new("l", &[2], &[0], 0, &words(&[5]));
    let d = Tensor::new("i", &[3], &[2], 0, &words(&[0, 8, 10, 8, -1]));
    gives_signed(&Case { a, b, c: None, d, alpha: 1, beta: 0 }, 2, &[-8, 8, 2, 8, -9]);
}

/// A batch, and groups of several labels in other orders.
#[test]
fn batches() {
    let a = Tensor::new("hik", &[2, 2, 2], &[4, 2, 1], 0, &words(&[1, 2, 3, 4, -1, -2, -3, -4]));
    let b = Tensor::new("kh", &[2, 2], &[2, 1], 0, &words(&[10, 20, 30, 40]));
    let d = Tensor::new("ih", &[2, 2], &[2, 1], 0, &words(&[1, 1, 1, 1]));
    gives_signed(&Case { a, b, c: None, d, alpha: 1, beta: 1 }, 1, &[1 + 35, 1 - 50, 1 + 75, 1 - 110]);
}

/// What `refusals` breaks is accepted as it is, runs two tiles and changes words, work and sums.
#[test]
fn the_sound_request() {
    let r = sound_request();
    let found = check_run(&r);
    assert_eq!((found.ran.answer, found.ran.done, found.ran.complete), (0, 3, 0));
    assert!(found.ran.words != r.request.case.d.words && found.ran.work != r.request.work && found.sums != r.sums);
    assert_eq!(check_plain(&r.request.case, r.shift).answer, 0);
}
