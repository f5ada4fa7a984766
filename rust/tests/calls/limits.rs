//! Each limit exactly, and one past it.

use crate::common::call::{check, gives, refuses, run};
use crate::common::case::{Case, Tensor};

const LIMIT: usize = 16_777_216;

/// D's only word becomes 2 × 3, until a tensor is changed.
fn six() -> Case {
    Case { a: Tensor::scalar(2), b: Tensor::scalar(3), c: None, d: Tensor::scalar(9), alpha: 1, beta: 0 }
}

fn with(which: usize, change: impl FnOnce(&mut Tensor)) -> Case {
    let mut case = six();
    change(case.tensor_mut(which));
    case
}

#[test]
fn rank_8_and_9() {
    for which in 0..3 {
        let rank = |letters: &'static [u8]| with(which, |t| letters.iter().for_each(|letter| t.push(*letter, 1, 5)));
        gives(&rank(b"AZazmnop"), &[6]);
        gives(&rank(b"iiiiiiii"), &[6]);
        refuses(&rank(b"AZazmnopq"), 1);
        refuses(&rank(b"iiiiiiiii"), 1);
    }
}

/// Every byte: the 52 letters pass.
#[test]
fn letters() {
    for which in 0..3 {
        for byte in 0..=u8::MAX {
            let case = with(which, |t| t.push(byte, 1, 1));
            match byte {
                b'A'..=b'Z' | b'a'..=b'z' => gives(&case, &[6]),
                _ => refuses(&case, 3),
            }
        }
    }
}

#[test]
fn extent_65_536_and_one_more() {
    for which in 0..3 {
        let extent = |extent: u32| {
            with(which, |t| {
                t.push(b'i', extent, 1);
                t.words = (1..=extent).collect();
            })
        };
        assert_eq!(check(&extent(65_536)).answer, 0);
        refuses(&extent(65_537), 4);
    }
}

#[test]
fn stride_16_777_216_and_one_more() {
    for which in 0..3 {
        let stride = |stride: i32| with(which, |t| t.push(b'i', 1, stride));
        gives(&stride(16_777_216), &[6]);
        gives(&stride(-16_777_216), &[6]);
        for past in [16_777_217, -16_777_217, i32::MAX, i32::MIN] {
            refuses(&stride(past), 5);
        }
    }
}

/// Strides at both limits in one letter: their sum is what counts, in question 8 and in question 9.
#[test]
fn large_strides_that_nearly_cancel() {
    for which in 0..3 {
        let diagonal = |strides: [i32; 2], base: u32| {
            with(which, |t| {
                *t = Tensor::new("ii", &[3, 3], &strides, base, &[4, 5, 6]);
            })
        };
        assert_eq!(check(&diagonal([16_777_216, -16_777_215], 0)).answer, 0);
        assert_eq!(check(&diagonal([-16_777_216, 16_777_215], 2)).answer, 0);
        refuses(&diagonal([-16_777_216, 16_777_215], 1), 8);
        let cancelled = diagonal([16_777_216, -16_777_216], 0);
        assert_eq!(check(&cancelled).answer, if which == 2 { 9 } else { 0 });
    }
}

/// A base of 16,777,216 passes question 5 and is outside every slice; 8 answers.
#[test]
fn base_16_777_216_and_one_more() {
    for which in 0..3 {
        refuses(&with(which, |t| t.base = 16_777_216), 8);
        refuses(&with(which, |t| t.base = 16_777_217), 5);
        refuses(&with(which, |t| t.base = u32::MAX), 5);
    }
}

/// The last word of the longest slice is used, and one word more refuses.
#[test]
fn slice_of_16_777_216_words_and_one_more() {
    for which in 0..3 {
        let mut case = with(which, |t| {
            t.words.resize(LIMIT, t.words[0]);
            t.base = 16_777_215;
        });
        let found = check(&case);
        assert_eq!((found.answer, found.words.last()), (0, Some(&6)));
        case.tensor_mut(which).words.push(1);
        refuses(&case, 5);
        case.tensor_mut(which).base = 0;
        refuses(&case, 5);
    }
}

/// The longest reach: from word 0 to the last word of the longest slice, upwards and downwards, and one too far.
#[test]
fn entries_at_both_ends_of_the_longest_slice() {
    let mut case = six();
    case.a = Tensor::new("i", &[2], &[16_777_215], 0, &vec![7; LIMIT]);
    gives(&case, &[42]);
    (case.a.strides[0], case.a.base) = (-16_777_215, 16_777_215);
    gives(&case, &[42]);
    case.a.strides[0] = -16_777_216;
    refuses(&case, 8);
    (case.a.strides[0], case.a.base) = (16_777_216, 0);
    refuses(&case, 8);
}

/// Labels of A and B that stay on one word, with D outside its slice: a passed question 7 shows as 8.
#[test]
fn product_2_to_the_30_and_more() {
    let product = |a: &[u32], b: &[u32]| {
        let mut case = six();
        b"abcdefgh".iter().zip(a).for_each(|(letter, extent)| case.a.push(*letter, *extent, 0));
        b"ijklmnop".iter().zip(b).for_each(|(letter, extent)| case.b.push(*letter, *extent, 0));
        case.d.base = 1;
        case
    };
    refuses(&product(&[1024, 1024], &[1024]), 8);
    refuses(&product(&[16_384], &[65_536]), 8);
    refuses(&product(&[2, 2, 2, 2, 2], &[8, 8, 65_536, 8]), 8);
    refuses(&product(&[1024, 1024], &[1025]), 7);
    refuses(&product(&[16_384], &[65_536, 2]), 7);
    refuses(&product(&[65_536], &[65_536]), 7); // 2^32
    refuses(&product(&[65_536, 65_536], &[65_536, 65_536]), 7); // 2^64
    refuses(&product(&[65_536; 8], &[65_536; 8]), 7); // 2^256
}

/// A label counts once, however often it occurs, and a label of D alone counts too.
#[test]
fn product_over_different_labels() {
    let mut case = six();
    for which in 0..2 {
        case.tensor_mut(which).push(b'i', 32_768, 0);
        case.tensor_mut(which).push(b'i', 32_768, 0);
    }
    case.d = Tensor::new("ij", &[32_768, 32_768], &[1, 32_768], 0, &[9]);
    refuses(&case, 8);
    case.d.extents[1] = 32_769;
    refuses(&case, 7);
}

/// The largest sum there is: 2^30 terms of 15 are 15 × 2^30. The model would take too long.
#[test]
fn a_sum_of_2_to_the_30_terms() {
    let mut case = six();
    case.a = Tensor::new("ij", &[32_768, 32_768], &[0, 0], 0, &[3]);
    case.b = Tensor::scalar(5);
    let found = run(&case);
    assert_eq!((found.answer, found.words), (0, vec![3 << 30]));
}
