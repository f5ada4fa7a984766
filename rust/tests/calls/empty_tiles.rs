//! Tile calls, state questions and the driver where a group has size 0: a depth of size 0 is one panel with no terms,
//! and any other group of size 0 leaves no tiles.

use crate::common::case::{Case, Tensor};
use crate::common::lent::layout_of;
use crate::common::list::List;
use crate::common::request::{Ran, Request};
use crate::common::tile_call::{check_ask, check_run, same};
use nezgrak::{Contraction, OutputIndex, Progress, Refusal, State, TileSizes};

/// A(i,k) × B(k,j) into D(i,j) of 2 rows and 3 columns, with beta 3; k has extent 0.
fn no_terms() -> Case {
    let a = Tensor::new("ik", &[2, 0], &[1, 2], 0, &[]);
    let b = Tensor::new("kj", &[0, 3], &[1, 0], 0, &[]);
    Case { a, b, c: None, d: Tensor::new("ij", &[2, 3], &[1, 2], 0, &[10, 20, 30, 40, 50, 60]), alpha: 7, beta: 3 }
}

/// The same with four terms in each sum and a label of extent 0 that makes this group empty.
fn no_outputs(group: &str) -> Case {
    let a = Tensor::new("ik", &[2, 4], &[1, 2], 0, &[1, 2, 3, 4, 5, 6, 7, 8]);
    let b = Tensor::new("kj", &[4, 3], &[1, 4], 0, &[1; 12]);
    let mut case = Case { a, b, ..no_terms() };
    let tensors: &[usize] = match group {
        "batch" => &[0, 1, 2],
        "row" => &[0, 2],
        "row of D alone" => &[2],
        "column" => &[1, 2],
        _ => unreachable!("no group of outputs"),
    };
    tensors.iter().for_each(|which| case.tensor_mut(*which).push(b'e', 0, 100));
    case
}

const GROUPS: [&str; 4] = ["batch", "row", "row of D alone", "column"];

const SIZES: TileSizes = TileSizes { rows: 1, cols: 2, depth: 4 };

/// A request of one tile, the first.
fn request(case: Case, sizes: TileSizes) -> Request {
    let work = (50..50 + sizes.work_words() as u32).collect();
    Request { case, sizes, done: 0, budget: 1, work, index: OutputIndex::new(0, 0, 0) }
}

/// Tiles of one row and two columns: four of them, each of the one panel. A word is final as soon as its tile is done.
#[test]
fn depth_size_0_is_one_panel() {
    let mut list = List::new(&no_terms(), SIZES, 0);
    assert_eq!((list.left(), list.ask_all()), (4, vec![0; 6]));
    let after: [([u32; 6], [u32; 6]); 4] = [
        ([30, 20, 90, 40, 50, 60], [2, 0, 2, 0, 0, 0]),
        ([30, 60, 90, 120, 50, 60], [2, 2, 2, 2, 0, 0]),
        ([30, 60, 90, 120, 150, 60], [2, 2, 2, 2, 2, 0]),
        ([30, 60, 90, 120, 150, 180], [2; 6]),
    ];
    for (done, (words, states)) in (1..).zip(after) {
        assert_eq!(list.run(1, vec![9; 12]), 0);
        assert_eq!((list.done(), list.ask_all()), (done, states.to_vec()));
        assert_eq!(list.words(), words);
    }
    assert_eq!(list.run(1, vec![9; 12]), 0);
    assert_eq!((list.done(), list.words()), (4, &[30, 60, 90, 120, 150, 180][..]));
}

/// Every place of both blocks is past the edge and holds 0; the rest of work is as it was.
#[test]
fn the_blocks_of_a_panel_with_no_terms_hold_0() {
    let mut r = request(no_terms(), TileSizes { rows: 2, cols: 3, depth: 2 });
    r.work.extend([70, 71]);
    let ran = check_run(&r);
    assert_eq!((ran.answer, ran.done, ran.complete), (0, 1, 1));
    assert_eq!(ran.work, [0, 0, 0, 0, 0, 0, 0, 0, 0, 0, 70, 71]);
    assert_eq!(ran.words, [30, 60, 90, 120, 150, 180]);
    let largest = request(no_terms(), TileSizes { rows: 64, cols: 64, depth: 128 });
    assert_eq!(check_run(&largest).work, vec![0; 16_384]);
}

/// Budget 0, and all tiles done before: no tile runs, and work is as it was. One word of work too few is refused.
#[test]
fn no_tile_of_a_panel_with_no_terms() {
    let r = request(no_terms(), SIZES);
    for (done, budget, complete) in [(0, 0, 0), (3, 0, 0), (4, 0, 1), (4, 1, 1), (4, u64::MAX, 1)] {
        let stood = Request { done, budget, ..r.clone() };
        let (words, work) = (r.case.d.words.clone(), r.work.clone());
        same(&stood, &check_run(&stood), &Ran { answer: 0, done, complete, words, work });
    }
    for done in [5, u64::MAX] {
        let refused = Request { done, ..r.clone() };
        same(&refused, &check_run(&refused), &Ran::refused(&refused, 12));
        assert_eq!(check_ask(&refused), Err(12));
    }
    let mut short = r;
    short.work.pop();
    same(&short, &check_run(&short), &Ran::refused(&short, 11));
}

/// From a count on, the tiles left multiply the words as they are given.
#[test]
fn the_last_tiles_of_panels_with_no_terms() {
    let r = Request { done: 2, budget: 9, ..request(no_terms(), SIZES) };
    let ran = check_run(&r);
    assert_eq!((ran.answer, ran.done, ran.complete), (0, 4, 1));
    assert_eq!(ran.words, [10, 20, 30, 40, 150, 180]);
    let index = |row, column| OutputIndex::new(0, row, column);
    let state = |done, index| check_ask(&Request { done, index, ..r.clone() });
    assert_eq!([state(2, index(1, 1)), state(2, index(0, 2)), state(3, index(0, 2))], [Ok(2), Ok(0), Ok(2)]);
    assert_eq!(state(4, index(2, 0)), Err(13));
    assert_eq!(state(0, index(0, 3)), Err(13));
}

/// Two batches: the panel with no terms is one of each column block of each batch.
#[test]
fn tile_numbers_with_batches_and_no_terms() {
    let mut case = no_terms();
    case.a.push(b'h', 2, 5);
    case.b.push(b'h', 2, 5);
    case.d = Tensor::new("ijh", &[2, 3, 2], &[1, 2, 6], 0, &[1; 12]);
    let mut list = List::new(&case, SIZES, 0);
    assert_eq!(list.left(), 8);
    list.run(5, vec![4; 12]);
    assert_eq!(list.words(), [3, 3, 3, 3, 3, 3, 3, 1, 3, 1, 1, 1]);
    assert_eq!(list.ask_all(), [2, 2, 2, 2, 2, 2, 2, 0, 2, 0, 0, 0]);
}

/// Complete at once, whatever the budget: neither D nor work changes.
#[test]
fn no_tiles_where_a_group_of_outputs_is_empty() {
    for group in GROUPS {
        for budget in [0, 1, 2, 1 << 32, u64::MAX] {
            let r = Request { budget, ..request(no_outputs(group), SIZES) };
            let expected = Ran { answer: 0, done: 0, complete: 1, words: r.case.d.words.clone(), work: r.work.clone() };
            same(&r, &check_run(&r), &expected);
        }
    }
}

/// 10, 11, 12 and 13 where there are no tiles, in their order.
#[test]
fn refusals_where_there_are_no_tiles() {
    for group in GROUPS {
        let r = request(no_outputs(group), SIZES);
        let counts = [0, 1, 2, u64::MAX];
        for (batch, row) in counts.into_iter().flat_map(|batch| counts.map(|row| (batch, row))) {
            let index = OutputIndex::new(batch, row, batch);
            assert_eq!(check_ask(&Request { index, ..r.clone() }), Err(13), "{group}");
        }
        for (done, budget) in [(1, 0), (1, 1), (2, u64::MAX), (u64::MAX, u64::MAX)] {
            let mut refused = Request { done, budget, ..r.clone() };
            same(&refused, &check_run(&refused), &Ran::refused(&refused, 12));
            assert_eq!(check_ask(&refused), Err(12), "{group}");
            refused.work.truncate(11);
            same(&refused, &check_run(&refused), &Ran::refused(&refused, 11));
            refused.sizes.rows = 65;
            same(&refused, &check_run(&refused), &Ran::refused(&refused, 10));
            assert_eq!(check_ask(&refused), Err(10), "{group}");
        }
    }
}

/// A list of calls and questions: t stays 0.
#[test]
fn a_list_where_there_are_no_tiles() {
    for group in GROUPS {
        let mut list = List::new(&no_outputs(group), SIZES, 0);
        for (budget, work, answer) in [(3, 12, 0), (0, 12, 0), (1, 11, 11), (u64::MAX, 90, 0)] {
            assert_eq!(list.run(budget, vec![8; work]), answer);
            assert_eq!((list.done(), list.left(), list.ask_all()), (0, 0, vec![]));
            assert_eq!(list.ask(OutputIndex::new(0, 0, 0)), Err(13));
        }
        assert_eq!(list.words(), [10, 20, 30, 40, 50, 60]);
    }
}

/// Groups of up to 2^30 counts beside the empty one, and a depth that would be as large.
#[test]
fn large_extents_beside_an_extent_0() {
    let tensor = |letters: &str, extents: &[u32]| Tensor::new(letters, extents, &vec![0; extents.len()], 0, &[5]);
    let (large, one) = (|| tensor("xye", &[32_768, 32_768, 0]), || Tensor::scalar(5));
    let cases = [
        (one(), one(), large(), 0),
        (one(), tensor("eyx", &[0, 32_768, 32_768]), large(), 0),
        (large(), large(), tensor("e", &[0]), 0),
        (large(), one(), one(), 1),
        (large(), large(), one(), 1),
    ];
    for (a, b, d, total) in cases {
        let case = Case { a, b, c: None, d, alpha: 1, beta: 2 };
        let ran = check_run(&Request { budget: u64::MAX, ..request(case, SIZES) });
        assert_eq!((ran.answer, ran.done, ran.complete), (0, total, 1));
        assert_eq!(ran.words, if total == 0 { [5] } else { [10] });
    }
}

fn contraction(case: &Case) -> Contraction<'_> {
    let [a, b] = [&case.a, &case.b].map(|t| nezgrak::Tensor::new(layout_of(t), &t.words));
    Contraction::new(a, b, layout_of(&case.d)).with_alpha(case.alpha).with_beta(case.beta)
}

/// The driver is complete as it is made, and its iterator ends at once.
#[test]
fn the_driver_where_there_are_no_tiles() {
    for group in GROUPS {
        let (case, mut work) = (no_outputs(group), vec![1; 12]);
        let mut words = case.d.words.clone();
        let mut tiles = contraction(&case).tiles(&mut words, SIZES, &mut work).expect("an accepted contraction");
        assert_eq!((tiles.done(), tiles.total(), tiles.is_complete()), (0, 0, true));
        assert_eq!(tiles.next(), None);
        assert_eq!(tiles.step(5), Ok(Progress { done: 0, complete: true }));
        assert_eq!(tiles.state(OutputIndex::new(0, 0, 0)).map_err(Refusal::number), Err(13));
        assert_eq!(tiles.words(), case.d.words);
        assert_eq!(work, [1; 12]);
    }
}

/// One item for each tile of the one panel.
#[test]
fn the_driver_with_no_terms() {
    let (case, mut work) = (no_terms(), vec![1; 12]);
    let mut words = case.d.words.clone();
    let mut tiles = contraction(&case).tiles(&mut words, SIZES, &mut work).expect("an accepted contraction");
    assert_eq!((tiles.done(), tiles.total(), tiles.is_complete()), (0, 4, false));
    assert_eq!(tiles.next(), Some(Ok(Progress { done: 1, complete: false })));
    let state = |tiles: &nezgrak::Tiles<'_>, row| tiles.state(OutputIndex::new(0, row, 0));
    assert_eq!([state(&tiles, 0), state(&tiles, 1)], [Ok(State::Final), Ok(State::Old)]);
    let rest: Result<Vec<u64>, Refusal> = tiles.map(|progress| progress.map(|progress| progress.done)).collect();
    assert_eq!(rest, Ok(vec![2, 3, 4]));
    assert_eq!((words, work), (vec![30, 60, 90, 120, 150, 180], vec![0; 12]));
}
