//! What a call costs, on a small contraction and on a large one, at the first tile and at the last.

use crate::clock::{best_times, Pace};
use crate::contraction::{Contraction, TILE};
use crate::shapes::{matrices, overlapping};
use nezgrak::{OutputIndex, Progress, State, TileSizes};
use std::time::Duration;

pub const PACE: Pace = Pace { turns: 200, repeats: 20 };
const TERM: TileSizes = TileSizes { rows: 1, cols: 1, depth: 1 };
const TERMS_OF_512: u64 = 512 * 512 * 512;
const TILES_OF_512: u64 = 8 * 8 * 4;

pub struct Call {
    pub what: &'static str,
    pub small: Duration,
    /// On 512×512×512, with no tile done.
    pub first: Duration,
    /// On 512×512×512, with all tiles but one done.
    pub last: Duration,
}

pub fn all() -> [Call; 5] {
    let ([small, large], [small_refused, large_refused]) =
        ([4, 512].map(|n| matrices(n, n, n)), [4, 512].map(overlapping));
    let tile = matrices(64, 64, 128);
    [
        measure("one tile of 1×1×1", TERM, run_one, &small, &large, TERMS_OF_512),
        measure("one tile of 64×64×128; the small one is 64×64×128", TILE, run_one, &tile, &large, TILES_OF_512),
        measure("budget 0, tiles of 1×1×1", TERM, run_none, &small, &large, TERMS_OF_512),
        measure("a state question, tiles of 1×1×1", TERM, ask_state, &small, &large, TERMS_OF_512),
        measure(
            "refused by question 9, tiles of 1×1×1",
            TERM,
            be_refused,
            &small_refused,
            &large_refused,
            TERMS_OF_512,
        ),
    ]
}

/// A contraction with the words that a call may change.
struct Lent<'a> {
    contraction: nezgrak::Contraction<'a>,
    sizes: TileSizes,
    d: Vec<u32>,
    work: Vec<u32>,
}

type Run = fn(&mut Lent<'_>, u64);

fn measure(
    what: &'static str,
    sizes: TileSizes,
    run: Run,
    small: &Contraction,
    large: &Contraction,
    total: u64,
) -> Call {
    eprintln!("measuring a call: {what}");
    let [mut at_small, mut at_first, mut at_last] = [small, large, large].map(|contraction| Lent {
        contraction: contraction.lent(),
        sizes,
        d: contraction.d.words.clone(),
        work: vec![0; sizes.work_words()],
    });
    let contenders: [&mut dyn FnMut(); 3] =
        [&mut || run(&mut at_small, 0), &mut || run(&mut at_first, 0), &mut || run(&mut at_last, total - 1)];
    let [small, first, last] = best_times(PACE, contenders);
    Call { what, small, first, last }
}

fn run_one(lent: &mut Lent<'_>, done: u64) {
    let answer = lent.contraction.run_tiles(&mut lent.d, lent.sizes, &mut lent.work, done, 1);
    assert_eq!(answer.map(|progress| progress.done), Ok(done + 1), "a call of one tile");
}

fn run_none(lent: &mut Lent<'_>, done: u64) {
    let answer = lent.contraction.run_tiles(&mut lent.d, lent.sizes, &mut lent.work, done, 0);
    assert_eq!(answer, Ok(Progress { done, complete: false }), "a call of budget 0");
}

fn ask_state(lent: &mut Lent<'_>, done: u64) {
    let answer = lent.contraction.state(&lent.d, lent.sizes, done, OutputIndex::new(0, 0, 0));
    assert_eq!(answer, Ok(if done == 0 { State::Old } else { State::Final }), "a state question");
}

fn be_refused(lent: &mut Lent<'_>, done: u64) {
    let answer = lent.contraction.run_tiles(&mut lent.d, lent.sizes, &mut lent.work, done, 1);
    assert_eq!(answer.map_err(|refusal| refusal.number()), Err(9), "a refused call");
}
