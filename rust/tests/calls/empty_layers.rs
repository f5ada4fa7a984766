//! Labels of extent 0, by the plain call and by tile calls: what becomes of D, and what the questions 4 to 9 say.

use crate::common::both::{gives, refuses};
use crate::common::call;
use crate::common::case::{Case, Tensor};

const LIMIT: u32 = 16_777_216;

/// Alpha 5 and beta 3.
fn contraction(a: Tensor, b: Tensor, d: Tensor) -> Case {
    Case { a, b, c: None, d, alpha: 5, beta: 3 }
}

fn scalars() -> Case {
    contraction(Tensor::scalar(2), Tensor::scalar(7), Tensor::scalar(9))
}

/// The case with one axis more in these tensors, A 0, B 1 and D 2, of extent 0 and stride 1.
fn with_empty(mut case: Case, tensors: &[usize]) -> Case {
    tensors.iter().for_each(|which| case.tensor_mut(*which).push(b'e', 0, 1));
    case
}

/// A(i,k) × B(k,j) into D(i,j), of extents 2, 3 and 2.
fn matrices() -> Case {
    let a = Tensor::new("ik", &[2, 3], &[1, 2], 0, &[1, 2, 3, 4, 5, 6]);
    let b = Tensor::new("kj", &[3, 2], &[1, 3], 0, &[1, 0, 2, 0, 1, 1]);
    contraction(a, b, Tensor::new("ij", &[2, 2], &[1, 2], 0, &[100, 200, 300, 400]))
}

/// A label of A, of B or of both that D lacks: no term is left, and D's words become 3 × old.
#[test]
fn a_sum_over_no_values_is_0() {
    for tensors in [&[0][..], &[1], &[0, 1]] {
        gives(&with_empty(scalars(), tensors), &[27]);
        gives(&with_empty(matrices(), tensors), &[300, 600, 900, 1_200]);
    }
}

/// The label that was summed over, in A and B, now has extent 0; nothing else is left to sum.
#[test]
fn the_only_summed_label_is_empty() {
    let mut case = matrices();
    case.a = Tensor::new("ik", &[2, 0], &[1, 2], 0, &[]);
    case.b = Tensor::new("kj", &[0, 2], &[1, 0], 0, &[]);
    gives(&case, &[300, 600, 900, 1_200]);
    for (beta, words) in [(0, [0, 0, 0, 0]), (1, [100, 200, 300, 400]), (1 << 31, [0; 4])] {
        gives(&Case { beta, ..case.clone() }, &words);
    }
}

/// Beta × old wraps; alpha multiplies a sum that is 0.
#[test]
fn beta_times_old_modulo_2_to_the_32() {
    let case = with_empty(scalars(), &[0]);
    let with = |beta, old, alpha| Case { alpha, beta, d: Tensor::scalar(old), ..case.clone() };
    gives(&with(3, 1 << 31, u32::MAX), &[1 << 31]);
    gives(&with(u32::MAX, 1, 0), &[u32::MAX]);
    gives(&with(u32::MAX, u32::MAX, u32::MAX), &[1]);
    gives(&with(0, u32::MAX, u32::MAX), &[0]);
}

/// D has no entries where it has the label: as a row of its own, of A, a column of B, or a batch of all three.
#[test]
fn no_word_changes_where_d_has_no_entries() {
    for tensors in [&[2][..], &[0, 2], &[1, 2], &[0, 1, 2]] {
        gives(&with_empty(scalars(), tensors), &[9]);
        gives(&with_empty(matrices(), tensors), &[100, 200, 300, 400]);
    }
    let mut none = with_empty(scalars(), &[2]);
    none.d.words.clear();
    gives(&none, &[]);
}

/// Depth and output both without values: D decides.
#[test]
fn several_labels_of_extent_0() {
    let mut case = with_empty(matrices(), &[0, 1]);
    case.a.push(b'f', 0, 1);
    gives(&case, &[300, 600, 900, 1_200]);
    case.d.push(b'g', 0, 1);
    gives(&case, &[100, 200, 300, 400]);
    for t in [&mut case.a, &mut case.b, &mut case.d] {
        *t = Tensor::new("xyz", &[0, 0, 0], &[1, 0, -3], 6, &[8, 9]);
    }
    gives(&case, &[8, 9]);
}

/// Where a depth is empty only D's entries change: not the words in its gaps, nor those off its diagonal.
#[test]
fn words_between_the_entries_stay() {
    let d = Tensor::new("ij", &[2, 2], &[-2, 3], 3, &[1, 2, 3, 4, 5, 6, 7, 8]);
    gives(&with_empty(Case { d, ..scalars() }, &[1]), &[1, 6, 3, 12, 15, 6, 21, 8]);
    let d = Tensor::new("ii", &[2, 2], &[1, 2], 0, &[50, 60, 70, 80]);
    gives(&with_empty(Case { d, ..scalars() }, &[0, 1]), &[150, 60, 70, 240]);
}

/// The place of the 0 among up to eight letters does not matter, nor does a letter that is repeated.
#[test]
fn question_4_accepts_0_at_every_place() {
    for which in 0..3 {
        let expected = [if which == 2 { 9 } else { 27 }];
        for place in 0..8 {
            let mut case = scalars();
            let extent = |axis| if axis == place { 0 } else { 2 };
            (0..8).for_each(|axis| case.tensor_mut(which).push(b'a' + axis, extent(axis), 1));
            gives(&case, &expected);
            case.tensor_mut(which).extents[usize::from(place)] = 65_537;
            refuses(&case, 4);
        }
        let mut repeated = scalars();
        (0..2).for_each(|_| repeated.tensor_mut(which).push(b'i', 0, 1));
        gives(&repeated, &expected);
    }
}

/// An extent 65,537 is refused wherever the 0 stands.
#[test]
fn question_4_beside_an_extent_0() {
    for empty in 0..3 {
        for large in 0..3 {
            let mut case = with_empty(scalars(), &[empty]);
            case.tensor_mut(large).push(b'l', 65_536, 0);
            if large != 2 || empty == 2 {
                gives(&case, &[if empty == 2 { 9 } else { 27 }]);
            }
            *case.tensor_mut(large).extents.last_mut().expect("an axis") = 65_537;
            refuses(&case, 4);
        }
    }
}

/// Base, strides and the length of the slice are limited in a tensor without entries too.
#[test]
fn question_5_is_asked_of_a_tensor_without_entries() {
    for which in 0..3 {
        let expected = [if which == 2 { 9 } else { 27 }];
        let with = |stride: i32, base: u32| {
            let mut case = scalars();
            case.tensor_mut(which).push(b'e', 0, stride);
            case.tensor_mut(which).base = base;
            case
        };
        for stride in [16_777_216, -16_777_216] {
            gives(&with(stride, LIMIT), &expected);
        }
        for stride in [16_777_217, -16_777_217, i32::MAX, i32::MIN] {
            refuses(&with(stride, 0), 5);
        }
        for base in [LIMIT + 1, u32::MAX] {
            refuses(&with(1, base), 5);
        }
        let mut long = with(1, 0);
        long.tensor_mut(which).words = vec![9; LIMIT as usize];
        assert_eq!(call::check(&long).answer, 0);
        long.tensor_mut(which).words.push(9);
        call::refuses(&long, 5);
    }
}

/// 0 is an extent as any other: it has to be the same wherever the letter occurs.
#[test]
fn question_6_tells_0_from_other_extents() {
    for extent in [1, 2, 65_536] {
        for (one, other) in [(0, 1), (0, 2), (1, 2), (1, 0), (2, 0), (2, 1), (0, 0), (1, 1), (2, 2)] {
            let mut case = with_empty(scalars(), &[one]);
            case.tensor_mut(other).push(b'e', extent, 1);
            refuses(&case, 6);
        }
    }
}

/// The product of 32,768 and 32,768 passes beside a 0, and with 32,769 it does not, whichever tensor has the 0.
#[test]
fn an_extent_0_counts_as_1_in_question_7() {
    for empty in 0..3 {
        for which in 0..2 {
            let mut case = with_empty(scalars(), &[empty]);
            case.tensor_mut(which).push(b'x', 32_768, 0);
            case.tensor_mut(which).push(b'y', 32_768, 0);
            gives(&case, &[if empty == 2 { 9 } else { 27 }]);
            *case.tensor_mut(which).extents.last_mut().expect("an axis") = 32_769;
            refuses(&case, 7);
            case.tensor_mut(1 - which).push(b'z', 0, 0);
            refuses(&case, 7);
        }
    }
}

/// Labels of D alone, before and after the 0, and a product of 2^112 beside it.
#[test]
fn question_7_around_an_extent_0() {
    let d = |extents: &[u32]| {
        let axes = extents.len();
        Case { d: Tensor::new(&"stuvwxyz"[..axes], extents, &vec![0; axes], 0, &[4]), ..scalars() }
    };
    gives(&d(&[32_768, 0, 32_768]), &[4]);
    gives(&d(&[0, 65_536, 16_384, 0]), &[4]);
    refuses(&d(&[32_768, 0, 32_769]), 7);
    refuses(&d(&[0, 32_769, 32_768]), 7);
    refuses(&d(&[65_536, 65_536, 65_536, 65_536, 65_536, 65_536, 65_536, 0]), 7);
}

/// A batch x, a row y and a column z, of which one is empty and the two others have 32,768 values.
#[test]
fn large_groups_beside_an_empty_one() {
    for empty in 0..3 {
        let mut extents = [32_768; 3];
        extents[empty] = 0;
        let [x, y, z] = extents;
        let a = Tensor::new("xy", &[x, y], &[0, 0], 0, &[2]);
        let b = Tensor::new("xz", &[x, z], &[0, 0], 0, &[7]);
        gives(&contraction(a, b, Tensor::new("xyz", &extents, &[0, 0, 0], 0, &[9])), &[9]);
    }
}

/// No words, a base after them, and strides that lead out: there is no entry that could be outside.
#[test]
fn a_tensor_without_entries_passes_question_8() {
    for which in 0..3 {
        for (base, length) in [(0, 0), (1, 0), (LIMIT, 0), (3, 3), (9, 1), (0, 1)] {
            let mut case = scalars();
            let words = vec![6; length];
            *case.tensor_mut(which) = Tensor::new("xey", &[4, 0, 3], &[-1, 7, 100], base, &words);
            gives(&case, if which == 2 { &words[..] } else { &[27] });
            case.tensor_mut(which).extents[1] = 1;
            refuses(&case, 8);
        }
    }
}

/// Whichever tensor has no entries, each other one is asked: by its base, by its words and by its extents.
#[test]
fn the_other_tensors_are_asked_question_8() {
    for (empty, asked) in [(0, 1), (0, 2), (1, 0), (1, 2), (2, 0), (2, 1)] {
        let breaks: [fn(&mut Tensor); 3] = [|t| t.base = 1, |t| t.words.clear(), |t| t.push(b'o', 2, 1)];
        for outside in breaks {
            let mut case = with_empty(scalars(), &[empty]);
            outside(case.tensor_mut(asked));
            refuses(&case, 8);
        }
    }
}

/// D of extents 3 2 and 0: strides 2 3 and others that meet pass, and with 1 for the 0 they do not.
#[test]
fn a_d_without_entries_passes_question_9() {
    for strides in [[2, 3, 0], [0, 0, 0], [1, 1, 1], [1, 0, 5], [-2, 2, 9]] {
        let mut case = scalars();
        case.d = Tensor::new("ije", &[3, 2, 0], &strides, 4, &[1, 2, 3, 4, 5, 6, 7, 8, 9, 10, 11, 12]);
        gives(&case, &[1, 2, 3, 4, 5, 6, 7, 8, 9, 10, 11, 12]);
        case.d.extents[2] = 1;
        refuses(&case, 9);
    }
}

/// A D with entries is asked, also where A and B have none.
#[test]
fn question_9_beside_tensors_without_entries() {
    let d = Tensor::new("ij", &[3, 2], &[2, 3], 0, &[1; 8]);
    refuses(&with_empty(Case { d, ..scalars() }, &[0]), 9);
    let d = Tensor::new("ij", &[3, 2], &[1, 0], 0, &[1; 3]);
    refuses(&with_empty(Case { d, ..scalars() }, &[0, 1]), 9);
}

/// The earlier of two questions answers, also where the later one would pass without its entries.
#[test]
fn the_order_of_questions() {
    let mut case = scalars();
    case.d = Tensor::new("ij", &[3, 2], &[1, 1], 0, &[1; 4]);
    case.a = Tensor::new("e", &[0], &[1], 7, &[]);
    refuses(&case, 9);
    case.b.words.clear();
    refuses(&case, 8);
    case.a.push(b'x', 32_768, 0);
    case.a.push(b'y', 32_769, 0);
    refuses(&case, 7);
    case.b.push(b'e', 1, 0);
    refuses(&case, 6);
    case.a.base = LIMIT + 1;
    refuses(&case, 5);
    case.d.extents[0] = 65_537;
    refuses(&case, 4);
}
