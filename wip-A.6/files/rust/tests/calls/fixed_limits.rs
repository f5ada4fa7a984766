//! Fixed point at its limits and one past them: depth sizes, shifts, words, slices, and the greatest sums.

use crate::common::case::{Case, Tensor};
use crate::common::fixed_both::{gives_signed, refuses, request_of};
use crate::common::fixed_call::{check_ask, check_plain, check_run, run, run_plain};
use crate::common::fixed_list::{run_in, FixedList};
use crate::common::fixed_make::OUTSIDE;
use crate::common::rng::Rng;
use nezgrak::TileSizes;

const LIMIT: usize = 16_777_216;
const LARGEST: TileSizes = TileSizes { rows: 64, cols: 64, depth: 128 };

/// The dot product of so many terms x × y.
fn constant(depth: u32, x: i32, y: i32, old: i32) -> Case {
    let vector = |number: i32| Tensor::new("k", &[depth], &[1], 0, &vec![number as u32; depth as usize]);
    Case { a: vector(x), b: vector(y), c: None, d: Tensor::scalar(old as u32), alpha: 1, beta: 1 }
}

/// The greatest and the least sum there are, 2^46 and -(2^46 - 2^31), in 512 panels.
#[test]
fn the_greatest_sums() {
    const LEAST: i64 = -(1 << 46) + (1 << 31);
    for (x, y, sum) in [(-32_768, -32_768, 1 << 46), (-32_768, 32_767, LEAST), (32_767, -32_768, LEAST)] {
        for (old, shift) in [(0, 15), (-1, 15), (i32::MIN, 15), (i32::MIN, 14), (0, 0), (i32::MAX, 15)] {
            let case = constant(65_536, x, y, old);
            let (words, sums) = run_in(&case, shift, LARGEST, 5);
            assert_eq!(sums, [sum]);
            let whole = (i64::from(old) + (sum >> shift)).clamp(i32::MIN.into(), i32::MAX.into());
            assert_eq!(words, [whole as u32]);
            assert_eq!(check_plain(&case, shift).words, words);
        }
    }
}

/// In between, the sum of each panel is there, and no sum of the list is near the ends of 64 bits.
#[test]
fn every_panel_of_the_greatest_sum() {
    let mut list = FixedList::new(&constant(65_536, -32_768, -32_768, 9), 15, LARGEST, 0, vec![-7]);
    let mut rng = Rng::new(1);
    for panel in 1..=512 {
        list.step(1, &mut rng);
        assert_eq!(list.sums(), [panel << 37]);
    }
    assert_eq!(list.words(), [i32::MAX as u32]);
}

/// One panel for each depth count.
#[test]
fn panels_of_one_term() {
    let sizes = TileSizes { rows: 1, cols: 1, depth: 1 };
    assert_eq!(run_in(&constant(65_536, -1, 3, 7), 1, sizes, 3), (vec![(7 - 98_304_i32) as u32], vec![-196_608]));
}

/// Depth sizes around 65,536, of one label and of several, in A, in B and in both.
#[test]
fn depth_sizes() {
    for depth in [65_535, 65_536] {
        let case = constant(depth, 1, 2, 0);
        assert_eq!((check_plain(&case, 1).words, run_in(&case, 1, LARGEST, 3).0), (vec![depth], vec![depth]));
    }
    for (extents, answer) in [
        (&[65_536][..], 0),
        (&[256, 256], 0),
        (&[2, 32_768], 0),
        (&[65_536, 1], 0),
        (&[65_537 / 3, 3], 0),
        (&[65_536, 2], 34),
        (&[257, 255], 0),
        (&[257, 256], 34),
        (&[241, 272], 34),
        (&[3, 21_846], 34),
        (&[32_769, 2], 34),
        (&[65_536, 16_384], 34),
        (&[64, 64, 16], 0),
        (&[64, 64, 17], 34),
    ] {
        for which in [[0; 3], [1; 3], [0, 1, 0], [1, 0, 1]] {
            let mut case = constant(1, 5, -3, 1);
            extents.iter().zip(b"xyz").zip(which).for_each(|((e, l), t)| case.tensor_mut(t).push(*l, *e, 0));
            let found = check_plain(&case, 15);
            assert_eq!(found.answer, answer, "{case:?}");
            let mut r = request_of(&case, 15);
            r.request.sizes = LARGEST;
            r.request.work = vec![3; LARGEST.work_words()];
            let ran = check_run(&r).ran;
            assert_eq!((ran.answer, ran.done, check_ask(&r.request)), (answer, u64::from(answer == 0), Ok(0)));
        }
    }
}

/// Labels of D count for nothing in 34, however many outputs there are.
#[test]
fn labels_of_d_are_no_depth() {
    let mut case = constant(1, 1, 1, 0);
    case.d = Tensor::new("i", &[65_536], &[1], 0, &vec![4; 65_536]);
    case.a.push(b'i', 65_536, 0);
    case.b.push(b'x', 2, 0);
    assert_eq!(check_plain(&case, 0).words, vec![6; 65_536]);
}

#[test]
fn shifts() {
    for shift in 0..=15 {
        gives_signed(&constant(1, 1 << (shift / 2), 1 << (shift - shift / 2), 3), shift, &[4]);
    }
    for shift in [16, 17, 30, 31, 32, 33, 47, 48, 63, 64, 65, 1 << 16, 1 << 31, (1 << 31) + 3, u32::MAX] {
        refuses(&constant(1, 1, 1, 3), shift, 34);
    }
}

/// Each word at an end of the range, and one outside, at each place of A and of B.
#[test]
fn words_at_each_place() {
    for depth in [1, 2, 9, 70, 130] {
        for place in 0..depth as usize {
            for which in [0, 1] {
                let mut case = constant(depth, 0, 0, -6);
                for end in [-32_768, 32_767] {
                    case.tensor_mut(which).words[place] = end as u32;
                    assert_eq!((check_plain(&case, 3).answer, check_run(&request_of(&case, 3)).ran.answer), (0, 0));
                }
                case.tensor_mut(which).words[place] = OUTSIDE[place % OUTSIDE.len()] as u32;
                refuses(&case, 3, 35);
            }
        }
    }
    for outside in OUTSIDE {
        refuses(&constant(1, outside, 0, 0), 0, 35);
        refuses(&constant(1, 0, outside, 0), 0, 35);
    }
}

/// 35 looks at entries only: not at gaps, at words before and after, nor at words off a diagonal; and at those by summed
/// strides.
#[test]
fn words_that_are_no_entries() {
    let out = OUTSIDE[1] as u32;
    let gaps = Tensor::new("k", &[3], &[2], 1, &[out, 1, out, 2, out, 3, out]);
    let down = Tensor::new("k", &[3], &[-2], 5, &gaps.words);
    let square = Tensor::new("kk", &[3, 3], &[1, 3], 0, &[1, out, out, out, 2, out, out, out, 3]);
    let meeting = Tensor::new("kk", &[3, 3], &[100_000, -99_999], 0, &[1, 2, 3, out]);
    let one = Tensor::new("k", &[3], &[0], 1, &[out, 2, out]);
    for a in [gaps, down, square, meeting, one] {
        let sound = Case { a: a.clone(), ..constant(3, 0, 1, 5) };
        assert_eq!(check_plain(&sound, 0).answer, 0);
        let entries: Vec<usize> = (0..a.words.len()).filter(|place| a.words[*place] != out).collect();
        for place in entries {
            let mut case = sound.clone();
            case.a.words[place] = out;
            refuses(&case, 0, 35);
            refuses(&Case { a: sound.b.clone(), b: case.a, ..sound.clone() }, 0, 35);
        }
    }
}

/// Entries at both ends of the longest slice, and a word outside at the last one.
#[test]
fn the_longest_slices() {
    let mut case = constant(2, 3, 5, 1);
    case.a = Tensor::new("k", &[2], &[16_777_215], 0, &vec![7; LIMIT]);
    case.a.words[1..LIMIT - 1].fill(1 << 20);
    assert_eq!(check_plain(&case, 0).words, [1 + 70]);
    *case.a.words.last_mut().expect("a word") = 32_768;
    refuses(&case, 0, 35);
    case.a.words.push(7);
    refuses(&case, 0, 5);
}

/// As many sums as D has words, where most words are no entries; one less is refused, also where it would be for no entry.
#[test]
fn as_many_sums_as_words() {
    for (length, base) in [(1, 0), (2, 0), (2, 1), (5, 2), (300, 0), (300, 299)] {
        let mut case = constant(3, 2, 2, 0);
        case.d = Tensor::new("", &[], &[], base, &vec![8; length]);
        let mut r = request_of(&case, 1);
        assert_eq!((r.sums.len(), check_run(&r).ran.answer), (length, 0));
        r.sums.pop();
        assert_eq!((check_run(&r).ran.answer, check_ask(&r.request)), (33, Ok(0)));
        r.sums.clear();
        assert_eq!(check_run(&r).ran.answer, 33);
    }
    let mut empty = constant(3, 2, 2, 0);
    empty.d = Tensor::new("i", &[0], &[1], 0, &[]);
    let mut r = request_of(&empty, 1);
    assert_eq!((r.sums.len(), check_run(&r).ran.answer), (0, 0));
    r.request.case.d.words = vec![4];
    assert_eq!(check_run(&r).ran.answer, 33);
}

/// Of a word that is every entry of A one is enough to refuse, but 34 comes first.
#[test]
fn one_word_for_all_entries() {
    let a = Tensor::new("ik", &[16_384, 65_536], &[0, 0], 0, &[1 << 20]);
    let mut case = Case { a, b: Tensor::scalar(5), ..constant(1, 0, 0, 0) };
    assert_eq!((run_plain(&case, 0).answer, run(&request_of(&case, 0)).ran.answer), (34, 34));
    case.a.extents[0] = 1;
    assert_eq!((run_plain(&case, 0).answer, run(&request_of(&case, 0)).ran.answer), (35, 35));
    case.a.words[0] = 3;
    assert_eq!(run_plain(&case, 4).words, [61_440]);
}
