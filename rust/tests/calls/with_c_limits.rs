//! Each limit of C exactly, and one past it.

use crate::common::call::{check, gives, refuses};
use crate::common::case::{Case, Tensor};
use crate::common::cutting::{run_in, SIZES};

const LIMIT: usize = 16_777_216;

/// 2 × 3 + 10 × C's word 5 into D's only word, until C and D are changed.
fn fifty_six() -> Case {
    let c = Some(Tensor::scalar(5));
    Case { a: Tensor::scalar(2), b: Tensor::scalar(3), c, d: Tensor::scalar(9), alpha: 1, beta: 10 }
}

/// The same with labels of extent 1 in D, and these axes in C.
fn with_axes(of_d: &[u8], of_c: &[u8], stride: i32) -> Case {
    let mut case = fifty_six();
    of_d.iter().for_each(|letter| case.d.push(*letter, 1, 0));
    of_c.iter().for_each(|letter| case.tensor_mut(3).push(*letter, 1, stride));
    case
}

#[test]
fn rank_8_and_9() {
    gives(&with_axes(b"AZazmnop", b"ponmzaZA", 5), &[56]);
    gives(&with_axes(b"i", b"iiiiiiii", 5), &[56]);
    gives(&with_axes(b"iiiiiiii", b"i", 5), &[56]);
    refuses(&with_axes(b"i", b"iiiiiiiii", 5), 1);
    refuses(&with_axes(b"AZazmnop", b"AZazmnopq", 5), 1);
}

/// Every byte as C's letter, beside the same one of D's and beside another.
#[test]
fn letters() {
    for byte in 0..=u8::MAX {
        let (same, other) = (with_axes(&[byte], &[byte], 1), with_axes(b"i", &[byte], 1));
        match byte {
            b'i' => gives(&other, &[56]),
            b'A'..=b'Z' | b'a'..=b'z' => refuses(&other, 30),
            _ => refuses(&other, 3),
        }
        if byte.is_ascii_alphabetic() {
            gives(&same, &[56]);
        }
    }
}

/// Each two letters: C's has to be D's.
#[test]
fn letters_of_c_and_d() {
    let letters = || (b'A'..=b'Z').chain(b'a'..=b'z');
    for (of_c, of_d) in letters().flat_map(|of_c| letters().map(move |of_d| (of_c, of_d))) {
        let answer = if of_c == of_d { 0 } else { 30 };
        assert_eq!(check(&with_axes(&[of_d], &[of_c], 0)).answer, answer, "{of_c} and {of_d}");
    }
}

#[test]
fn extent_65_536_and_one_more() {
    let extent = |extent: u32| {
        let words: Vec<u32> = (1..=extent).collect();
        let c = Tensor::new("i", &[extent], &[-1], extent - 1, &words);
        Case { c: Some(c), d: Tensor::new("i", &[extent], &[1], 0, &words), ..fifty_six() }
    };
    let found = check(&extent(65_536));
    assert_eq!((found.answer, found.words[0], found.words[65_535]), (0, 655_366, 16));
    refuses(&extent(65_537), 4);
}

#[test]
fn stride_16_777_216_and_one_more() {
    gives(&with_axes(b"i", b"i", 16_777_216), &[56]);
    gives(&with_axes(b"i", b"i", -16_777_216), &[56]);
    for past in [16_777_217, -16_777_217, i32::MAX, i32::MIN] {
        refuses(&with_axes(b"i", b"i", past), 5);
    }
}

/// A base of 16,777,216 passes question 5 and is outside every slice; 8 answers.
#[test]
fn base_16_777_216_and_one_more() {
    for (base, number) in [(16_777_216, 8), (16_777_217, 5), (u32::MAX, 5)] {
        let mut case = fifty_six();
        case.tensor_mut(3).base = base;
        refuses(&case, number);
    }
}

/// The last word of the longest slice is used, and one word more refuses.
#[test]
fn slice_of_16_777_216_words_and_one_more() {
    let mut case = fifty_six();
    let c = case.tensor_mut(3);
    c.words = vec![4; LIMIT];
    (c.words[LIMIT - 1], c.base) = (5, 16_777_215);
    gives(&case, &[56]);
    case.tensor_mut(3).words.push(1);
    refuses(&case, 5);
    case.tensor_mut(3).base = 0;
    refuses(&case, 5);
}

/// The longest reach: from word 0 to the last word of the longest slice, upwards and downwards, and one too far.
#[test]
fn entries_at_both_ends_of_the_longest_slice() {
    let mut words = vec![0; LIMIT];
    (words[0], words[LIMIT - 1]) = (1, 2);
    let d = Tensor::new("i", &[2], &[1], 0, &[7, 8]);
    let mut case = Case { c: Some(Tensor::new("i", &[2], &[16_777_215], 0, &words)), d, ..fifty_six() };
    gives(&case, &[16, 26]);
    assert_eq!(run_in(&case, SIZES[0], 2), [16, 26]);
    (case.tensor_mut(3).strides[0], case.tensor_mut(3).base) = (-16_777_215, 16_777_215);
    gives(&case, &[26, 16]);
    assert_eq!(run_in(&case, SIZES[0], 2), [26, 16]);
    case.tensor_mut(3).strides[0] = -16_777_216;
    refuses(&case, 8);
    (case.tensor_mut(3).strides[0], case.tensor_mut(3).base) = (16_777_216, 0);
    refuses(&case, 8);
}

/// C's labels are D's: they count once in the product of question 7. A passed question 7 shows as 8.
#[test]
fn product_2_to_the_30_and_more() {
    let product = |extent: u32| {
        let t = Tensor::new("ij", &[32_768, extent], &[0, 0], 0, &[9]);
        let d = Tensor { strides: vec![1, 32_768], ..t.clone() };
        Case { c: Some(t), d, ..fifty_six() }
    };
    refuses(&product(32_768), 8);
    refuses(&product(32_769), 7);
}
