//! Labels of extent 0 in fixed point: sums over no values, contractions without outputs, and what is asked of them.

use crate::common::case::{Case, Tensor};
use crate::common::fixed_both::{gives, refuses, request_of};
use crate::common::fixed_call::{check_ask, check_plain, check_run};
use crate::common::fixed_list::run_in;
use nezgrak::TileSizes;

const OUT: u32 = 32_768;

/// A(i,k) × B(k,j) into D(i,j) with these extents; a tensor with an extent 0 has no words.
fn matrices(rows: u32, columns: u32, depth: u32) -> Case {
    let tensor = |letters: &str, extents: [u32; 2]| {
        let words: Vec<u32> = (1..=extents[0] * extents[1]).collect();
        Tensor::new(letters, &extents, &[1, extents[0] as i32], 0, &words)
    };
    let [a, b, d] =
        [("ik", [rows, depth]), ("kj", [depth, columns]), ("ij", [rows, columns])].map(|(l, e)| tensor(l, e));
    Case { a, b, c: None, d, alpha: 2, beta: 3 }
}

/// A sum over no values is 0: the words keep their values, and the sums of all of them become 0.
#[test]
fn no_terms() {
    for shift in 0..=15 {
        let mut case = matrices(3, 2, 0);
        case.d.words[4] = 1 << 31;
        gives(&case, shift, &case.d.words);
    }
    let case = matrices(3, 2, 0);
    for calls in [1, 2, 6] {
        let sizes = TileSizes { rows: 2, cols: 1, depth: 4 };
        assert_eq!(run_in(&case, 7, sizes, calls), (case.d.words.clone(), vec![0; 6]));
    }
}

/// The tiles of a depth without terms are counted and run one by one: each leaves zeros in work and in its sums.
#[test]
fn tiles_without_terms() {
    let mut r = request_of(&matrices(3, 2, 0), 1);
    (r.request.sizes, r.request.budget) = (TileSizes { rows: 2, cols: 1, depth: 3 }, 1);
    let found = check_run(&r);
    assert_eq!((found.ran.answer, found.ran.done, found.ran.complete), (0, 1, 0));
    assert_eq!(found.sums, [0, 0, 3, 4, 5, 6]);
    assert_eq!(found.ran.work, [0, 0, 0, 0, 0, 0, 0, 0, 0, 7]);
    assert_eq!((found.ran.words, check_ask(&r.request)), (r.request.case.d.words, Ok(0)));
}

/// No outputs: complete at once, and no word and no sum changes.
#[test]
fn no_outputs() {
    for (rows, columns) in [(0, 3), (3, 0), (0, 0)] {
        let mut case = matrices(rows, columns, 4);
        case.d.words = vec![5, 6, 7];
        gives(&case, 3, &[5, 6, 7]);
        let r = request_of(&case, 3);
        let found = check_run(&r);
        assert_eq!((found.ran.answer, found.ran.done, found.ran.complete, found.sums), (0, 0, 1, r.sums.clone()));
        assert_eq!(check_ask(&r.request), Err(13));
    }
}

/// 35 looks at every entry of A and of B, also where no sum has it: D has no entries, or the depth has no values.
#[test]
fn words_that_no_sum_uses_are_asked() {
    for place in 0..12 {
        let mut of_b = matrices(0, 3, 4);
        of_b.b.words[place] = OUT;
        refuses(&of_b, 0, 35);
        let mut of_a = matrices(3, 0, 4);
        of_a.a.words[place] = OUT;
        refuses(&of_a, 0, 35);
    }
    let mut beside = matrices(2, 2, 1);
    beside.a = Tensor::new("ikl", &[2, 1, 0], &[1, 2, 1], 0, &[]);
    gives(&beside, 0, &beside.d.words);
    beside.b.words[1] = OUT;
    refuses(&beside, 0, 35);
}

/// A tensor with an extent 0 has no entries, so that none of its words is asked.
#[test]
fn words_of_a_tensor_without_entries_are_not_asked() {
    let mut case = matrices(3, 2, 0);
    (case.a.words, case.b.words) = (vec![OUT; 5], vec![u32::MAX / 2; 5]);
    gives(&case, 4, &case.d.words);
    let mut without_rows = matrices(0, 3, 4);
    without_rows.a.words = vec![OUT; 9];
    assert_eq!(check_plain(&without_rows, 4).answer, 0);
}

/// The depth size is the plain product: with an extent 0 it is 0, however large the others are.
#[test]
fn depth_size_0_passes_34() {
    let mut case = matrices(2, 2, 0);
    case.a.push(b'x', 65_536, 0);
    gives(&case, 5, &case.d.words);
    case.b.push(b'y', 2, 0);
    gives(&case, 5, &case.d.words);
    case.a.push(b'z', 2_048, 0);
    gives(&case, 5, &case.d.words);
    refuses(&case, 16, 34);
}

/// With no outputs the depth size counts all the same.
#[test]
fn depth_size_counts_where_there_are_no_outputs() {
    let mut case = matrices(0, 2, 4);
    case.b.push(b'x', 16_384, 0);
    assert_eq!(check_plain(&case, 5).answer, 0);
    case.b.push(b'y', 2, 0);
    refuses(&case, 5, 34);
}
