//! What a call and a tile cost by the number of labels: tiles of 1×1×1, so that the tile has one product.

use crate::clock::{best_times, Pace};
use crate::contraction::{Axes, Contraction};
use nezgrak::TileSizes;
use std::collections::BTreeSet;
use std::time::Duration;

pub const PACE: Pace = Pace { turns: 200, repeats: 20 };
const TERM: TileSizes = TileSizes { rows: 1, cols: 1, depth: 1 };
/// At most so many tiles in the call from which the time of a further one is found.
const TILES: u64 = 16;

/// The letters of A, B and D. Up to 12 labels, each is in two tensors; of 16, eight are in two, and of 24 none is: a
/// tensor has at most eight letters.
const LETTERS: [[&str; 3]; 8] = [
    ["", "", ""],
    ["ak", "k", "a"],
    ["abk", "ki", "abi"],
    ["abkl", "klij", "abij"],
    ["abcklm", "klmij", "abcij"],
    ["abcdklmn", "klmnefgh", "abcdefgh"],
    ["abcklmpq", "klmefrst", "abcefuvw"],
    ["abcdefgh", "ijklmnop", "qrstuvwx"],
];

pub struct Labelled {
    pub labels: usize,
    pub letters: String,
    /// A call with budget 0.
    pub none: Duration,
    /// A call of one tile.
    pub one: Duration,
    /// Each further tile of a call, where there is one.
    pub further: Option<Duration>,
}

pub fn all() -> Vec<Labelled> {
    eprintln!("measuring calls by their labels");
    LETTERS.iter().map(measure).collect()
}

/// Budgets of 0, of 1 and of several take turns. Each has a D of its own; no tile is done before the call.
fn measure(letters: &[&'static str; 3]) -> Labelled {
    let contraction = contraction(letters);
    let (lent, several) = (contraction.lent(), contraction.terms().min(TILES));
    let run = |d: &mut Vec<u32>, budget: u64| {
        let answer = lent.run_tiles(d, TERM, &mut [0; 2], 0, budget);
        assert_eq!(answer.map(|progress| progress.done), Ok(budget), "a call of {budget} tiles");
    };
    let mut outputs = [(); 3].map(|()| contraction.d.words.clone());
    let [for_none, for_one, for_several] = &mut outputs;
    let contenders: [&mut dyn FnMut(); 3] =
        [&mut || run(for_none, 0), &mut || run(for_one, 1), &mut || run(for_several, several)];
    let [none, one, all] = best_times(PACE, contenders);
    let further = (several > 1).then(|| all.saturating_sub(one).div_f64((several - 1) as f64));
    let different: BTreeSet<char> = letters.concat().chars().collect();
    Labelled { labels: different.len(), letters: shown(letters), none, one, further }
}

fn shown([a, b, d]: &[&str; 3]) -> String {
    format!("{a},{b}->{d}")
}

/// Every extent is 2. No two labels fold: the strides are 1, 3, 7, 15 .., each one more than twice the one before.
fn contraction(letters: &[&'static str; 3]) -> Contraction {
    let extents = [2; 8];
    let strides: [i32; 8] = std::array::from_fn(|place| (2 << place) - 1);
    let axes =
        |letters: &'static str| -> Axes<'_> { (letters, &extents[..letters.len()], &strides[..letters.len()], 0) };
    let [a, b, d] = letters.map(axes);
    Contraction::random(a, b, d)
}
