//! Contractions in fixed point by both engines, beside the wrapping calls and loop nests in Rust on the same words.

use super::contest::ratio;
use crate::clock::{best_times, Pace};
use crate::contenders::nests::fixed::forms;
use crate::contenders::nests::Nest;
use crate::contraction::{Contraction, TILE};
use crate::shapes::matrices;
use nezgrak::TileSizes;
use std::time::Duration;

const SMALL: TileSizes = TileSizes { rows: 8, cols: 8, depth: 8 };

pub struct Case {
    /// Rows × columns × depth.
    pub name: &'static str,
    contraction: Contraction,
    pub sizes: TileSizes,
    /// In fixed point.
    nests: [Nest; 3],
    pub pace: Pace,
    /// The least that wrapping time / fixed time has to be, by tiles.
    pub least: Option<f64>,
}

/// The times of one engine.
pub struct Pair {
    pub wrapping: Duration,
    pub fixed: Duration,
}

impl Pair {
    pub fn ratio(&self) -> f64 {
        ratio(self.wrapping, self.fixed)
    }
}

pub struct Times {
    /// How many tiles a tile call runs.
    pub tiles: u64,
    pub tiled: Pair,
    pub plain: Pair,
    /// In the order of their forms.
    pub nests: [Duration; 3],
}

impl Times {
    pub fn fastest_nest(&self) -> Duration {
        self.nests.into_iter().min().expect("a loop nest")
    }
}

/// A whole tile in fixed point has to take at most twice as long as a wrapping one.
pub fn all() -> Vec<(Case, Times)> {
    let pace = |turns, repeats| Pace { turns, repeats };
    let one_tile = Case::new("64×64×128", matrices(64, 64, 128), TILE, forms::<4, 64, 128>(), pace(200, 10));
    let cases = [
        Case { least: Some(0.5), ..one_tile },
        Case::new("256×256×512", matrices(256, 256, 512), TILE, forms::<16, 256, 512>(), pace(20, 1)),
        Case::new("256×256×256", matrices(256, 256, 256), TILE, forms::<16, 256, 256>(), pace(30, 1)),
        Case::new("64×64×64", matrices(64, 64, 64), SMALL, forms::<4, 64, 64>(), pace(100, 5)),
    ];
    let timed = |case: Case| {
        let times = case.measure();
        (case, times)
    };
    cases.map(timed).into()
}

impl Case {
    /// A case of which no ratio is required.
    fn new(name: &'static str, matrices: Contraction, sizes: TileSizes, nests: [Nest; 3], pace: Pace) -> Self {
        Self { name, contraction: matrices.in_16_bits(), sizes, nests, pace, least: None }
    }

    /// Each contender has a D of its own. All run equally often, so that all in fixed point leave the same words, and
    /// both wrapping calls do; they are compared after the first turn, which is not timed, and after the last.
    fn measure(&self) -> Times {
        eprintln!("measuring {} in fixed point", self.name);
        let mut outputs = [(); 7].map(|()| self.contraction.d.words.clone());
        let (tiles, _) = self.run(Pace { turns: 1, repeats: 1 }, &mut outputs);
        let (_, [tiled, tiled_fixed, plain, plain_fixed, nests @ ..]) = self.run(self.pace, &mut outputs);
        let tiled = Pair { wrapping: tiled, fixed: tiled_fixed };
        let plain = Pair { wrapping: plain, fixed: plain_fixed };
        Times { tiles, tiled, plain, nests }
    }

    /// How many tiles there are, and the times in the order of the outputs.
    fn run(&self, pace: Pace, outputs: &mut [Vec<u32>; 7]) -> (u64, [Duration; 7]) {
        let (c, sizes, [first, second, third], mut tiles) = (&self.contraction, self.sizes, self.nests, 0);
        let (mut work, mut sums) = (vec![0; sizes.work_words()], vec![0; c.d.words.len()]);
        let mut work_fixed = work.clone();
        let [by_tiles, by_tiles_fixed, by_plain, by_plain_fixed, by_first, by_second, by_third] = &mut *outputs;
        let contenders: [&mut dyn FnMut(); 7] = [
            &mut || tiles = c.run_all_tiles(by_tiles, sizes, &mut work),
            &mut || c.run_all_tiles_fixed(by_tiles_fixed, sizes, &mut work_fixed, &mut sums),
            &mut || c.contract(by_plain),
            &mut || c.contract_fixed(by_plain_fixed),
            &mut || first(c, by_first),
            &mut || second(c, by_second),
            &mut || third(c, by_third),
        ];
        let times = best_times(pace, contenders);
        assert!(work == work_fixed, "{}: the tile calls leave different blocks", self.name);
        self.compare(outputs);
        (tiles, times)
    }

    fn compare(&self, [by_tiles, by_tiles_fixed, by_plain, by_plain_fixed, by_nests @ ..]: &[Vec<u32>; 7]) {
        let name = self.name;
        assert!(by_plain_fixed != &self.contraction.d.words, "{name}: the plain call in fixed point left D as it was");
        assert!(by_plain == by_tiles, "{name}: the wrapping calls differ");
        assert!(by_plain_fixed == by_tiles_fixed, "{name}: the calls in fixed point differ");
        assert!(by_nests.iter().all(|d| d == by_plain_fixed), "{name}: a loop nest and the calls differ");
    }
}
