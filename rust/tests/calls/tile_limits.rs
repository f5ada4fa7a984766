//! The tile sizes, counts, budgets and slices of tile calls and state questions at their limits, and one past them.

use crate::common::case::{Case, Tensor};
use crate::common::cutting::{run_in, SIZES};
use crate::common::formula::contraction;
use crate::common::list::List;
use crate::common::request::{Ran, Request};
use crate::common::rng::Rng;
use crate::common::tile_call::{ask, check_ask, check_run, run, same};
use nezgrak::{OutputIndex, TileSizes};

const LIMIT: usize = 16_777_216;

/// Rows, columns and depth of these sizes.
fn matrices(rows: u32, columns: u32, depth: u32) -> Case {
    contraction(0x11b1_7000 + u64::from(rows), "ik,kj>ij", "ijk", &[rows, columns, depth], 0)
}

fn request(case: Case, sizes: TileSizes) -> Request {
    let (done, budget, work) = (0, 1, vec![3; sizes.work_words()]);
    Request { case, sizes, done, budget, work, index: OutputIndex::new(0, 0, 0) }
}

fn answers(r: &Request) -> (u32, Result<u32, u32>) {
    (check_run(r).answer, check_ask(r))
}

/// Every size from 1 to the limit, each below, at and above the size of a group.
fn every_size(limit: u32, case_of: fn(u32) -> Case, with: fn(u32) -> TileSizes) {
    for group in [limit / 2 + 1, limit, limit + 3] {
        let case = case_of(group);
        for size in 1..=limit {
            run_in(&case, with(size), 3);
        }
        for size in [0, limit + 1, limit + 2, 2 * limit, 1 << 16, u32::MAX] {
            let mut r = request(case.clone(), SIZES[0]);
            (r.sizes, r.work) = (with(size), vec![3; 65_536]);
            assert_eq!(answers(&r), (10, Err(10)));
        }
    }
}

#[test]
fn rows_1_to_64() {
    every_size(64, |rows| matrices(rows, 3, 4), |rows| TileSizes { rows, cols: 2, depth: 3 });
}

#[test]
fn cols_1_to_64() {
    every_size(64, |columns| matrices(3, columns, 4), |cols| TileSizes { rows: 2, cols, depth: 3 });
}

#[test]
fn depth_1_to_128() {
    every_size(128, |depth| matrices(3, 2, depth), |depth| TileSizes { rows: 2, cols: 2, depth });
}

/// The largest tile, exactly filled, one count less and one count more in each group.
#[test]
fn the_largest_tile() {
    for (rows, columns, depth) in [(64, 64, 128), (63, 63, 127), (65, 64, 128), (64, 65, 128), (64, 64, 129)] {
        run_in(&matrices(rows, columns, depth), SIZES[3], u64::MAX);
    }
}

/// rows × depth + depth × cols words of work, where the two products differ; and one word less.
#[test]
fn work_exact_and_one_word_less() {
    for (rows, cols, depth) in
        [(1, 1, 1), (1, 1, 128), (64, 1, 1), (1, 64, 1), (64, 1, 128), (7, 64, 128), (64, 64, 128)]
    {
        let mut r = request(matrices(8, 9, 10), TileSizes { rows, cols, depth });
        assert_eq!(r.work.len(), (rows * depth + depth * cols) as usize);
        assert_eq!(answers(&r), (0, Ok(0)));
        r.work.pop();
        assert_eq!(answers(&r), (11, Ok(0)));
    }
}

/// Question 5 limits the slices of tensors; work may be longer.
#[test]
fn work_of_more_than_16_777_216_words() {
    let mut r = request(matrices(2, 2, 2), SIZES[1]);
    r.work = vec![8; LIMIT + 1];
    assert_eq!(check_run(&r).answer, 0);
}

#[test]
fn slice_of_16_777_216_words_and_one_more() {
    for which in 0..3 {
        let mut r = request(matrices(2, 2, 2), SIZES[1]);
        r.case.tensor_mut(which).words.resize(LIMIT, 4);
        assert_eq!(answers(&r), (0, Ok(0)));
        r.case.tensor_mut(which).words.push(4);
        assert_eq!(answers(&r), (5, Err(5)));
    }
}

/// The longest steps there are, up and down, in an even block.
#[test]
fn entries_at_both_ends_of_the_longest_slice() {
    let mut case = matrices(2, 2, 3);
    case.a = Tensor::new("i", &[2], &[16_777_215], 0, &vec![7; LIMIT]);
    run_in(&case, SIZES[1], 1);
    (case.a.strides[0], case.a.base) = (-16_777_215, 16_777_215);
    run_in(&case, SIZES[1], 1);
}

/// Each budget from each count, also of 2^64 - 1, and counts over the total up to 2^64 - 1.
#[test]
fn every_count_and_budget() {
    let r = request(matrices(3, 4, 5), TileSizes { rows: 2, cols: 2, depth: 3 });
    let total = 8;
    for done in 0..=total {
        for budget in (0..=total + 1).chain([1 << 31, 1 << 32, (1 << 32) + 1, 1 << 63, u64::MAX - 1, u64::MAX]) {
            let ran = check_run(&Request { done, budget, ..r.clone() });
            let after = total.min(done.saturating_add(budget));
            assert_eq!((ran.answer, ran.done, ran.complete), (0, after, u32::from(after == total)));
        }
    }
    for done in [total + 1, 1 << 31, 1 << 32, (1 << 32) + 1, 1 << 63, u64::MAX - total, u64::MAX] {
        for budget in [0, 1, u64::MAX] {
            let refused = Request { done, budget, ..r.clone() };
            same(&refused, &check_run(&refused), &Ran::refused(&refused, 12));
            assert_eq!(check_ask(&refused), Err(12));
        }
    }
}

#[test]
fn every_output_index_and_those_past_it() {
    let case = contraction(0x11b1_0002, "hik,hkj>ijh", "hijk", &[2, 3, 4, 5], 0);
    let mut list = List::new(&case, TileSizes { rows: 2, cols: 3, depth: 2 }, 0);
    let mut rng = Rng::new(7);
    let counts = || (0..5).chain([1 << 32, 1 << 63, u64::MAX]);
    let with_row = |batch| counts().map(move |row| (batch, row));
    while list.left() > 0 {
        for (batch, row) in counts().flat_map(with_row) {
            for column in counts() {
                let state = list.ask(OutputIndex::new(batch, row, column));
                assert_eq!(state.is_ok(), batch < 2 && row < 3 && column < 4);
            }
        }
        list.step(1, &mut rng);
    }
    assert_eq!(list.ask_all(), vec![2; 24]);
}

/// The largest total, 2^30 panels of one term 3 × 5 each: the last tiles run from their count at once. The model would
/// take too long.
#[test]
fn a_total_of_2_to_the_30() {
    const TOTAL: u64 = 1 << 30;
    let a = Tensor::new("ij", &[32_768, 32_768], &[0, 0], 0, &[3]);
    let case = Case { a, b: Tensor::scalar(5), c: None, d: Tensor::scalar(1_000), alpha: 2, beta: 9 };
    let mut r = request(case, SIZES[0]);
    r.budget = u64::MAX;
    for (done, word) in [(TOTAL - 3, 1_090), (TOTAL - 1, 1_030), (TOTAL, 1_000)] {
        r.done = done;
        let ran = run(&r);
        assert_eq!((ran.answer, ran.done, ran.complete, ran.words), (0, TOTAL, 1, vec![word]));
        assert_eq!(ran.work, if done < TOTAL { [3, 5] } else { [3, 3] });
        assert_eq!(ask(&r), Ok(if done < TOTAL { 1 } else { 2 }));
    }
    (r.done, r.budget) = (0, 2);
    assert_eq!((run(&r).done, run(&r).words, ask(&r)), (2, vec![9 * 1_000 + 2 * 30], Ok(0)));
    r.done = TOTAL + 1;
    assert_eq!((run(&r).answer, ask(&r)), (12, Err(12)));
}
