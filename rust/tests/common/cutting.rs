//! Whole contractions by tile calls, cut in several ways, with everything compared after each call.

use super::case::{same_words, Case};
use super::list::List;
use super::request::{Ran, Request};
use super::rng::Rng;
use super::tile_call::{check_ask, check_run, same};
use nezgrak::{OutputIndex, TileSizes};

/// The smallest tile, uneven ones, and the largest.
pub const SIZES: [TileSizes; 4] = [
    TileSizes { rows: 1, cols: 1, depth: 1 },
    TileSizes { rows: 2, cols: 3, depth: 2 },
    TileSizes { rows: 5, cols: 4, depth: 7 },
    TileSizes { rows: 64, cols: 64, depth: 128 },
];

/// Runs all tiles in this many calls, or one for each tile where there are fewer, and one where there are none. Gives
/// D's words.
pub fn run_in(case: &Case, sizes: TileSizes, calls: u64) -> Vec<u32> {
    let mut list = List::new(case, sizes, 0);
    let (mut rng, budget) = (Rng::new(calls), list.left().div_ceil(calls));
    list.step(budget, &mut rng);
    while list.left() > 0 {
        list.step(budget, &mut rng);
    }
    list.words().to_vec()
}

/// Tile calls have to leave exactly these words, whatever the sizes and budgets.
pub fn gives(case: &Case, words: &[u32]) {
    for sizes in SIZES {
        for calls in [1, 3, u64::MAX] {
            same_words("D", case, &run_in(case, sizes, calls), words);
        }
    }
}

/// A tile call and a state question have to refuse by this number, which is one of 1 to 9, or 30.
pub fn refuses(case: &Case, number: u32) {
    let (case, index) = (case.clone(), OutputIndex::new(0, 0, 0));
    let r = Request { case, sizes: SIZES[1], done: 0, budget: 1, work: vec![7; 10], index };
    same(&r, &check_run(&r), &Ran::refused(&r, number));
    assert_eq!(check_ask(&r), Err(number), "the state by {r:?}");
}
