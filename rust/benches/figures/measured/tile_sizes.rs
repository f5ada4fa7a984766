//! One contraction in tiles of different sizes.

use crate::clock::{best_of, Pace};
use crate::contraction::Contraction;
use crate::shapes;
use nezgrak::TileSizes;
use std::time::Duration;

pub const PACE: Pace = Pace { turns: 7, repeats: 1 };
const SIZE: u32 = 512;

/// Rows, columns, depth.
const SIZES: [[u32; 3]; 9] = [
    [8, 8, 16],
    [16, 16, 32],
    [32, 32, 64],
    [64, 64, 128],
    [64, 64, 32],
    [64, 8, 128],
    [8, 64, 128],
    [64, 1, 128],
    [1, 64, 128],
];

pub struct InTiles {
    pub sizes: TileSizes,
    pub tiles: u64,
    pub time: Duration,
}

impl InTiles {
    pub fn one_tile(&self) -> Duration {
        self.time.div_f64(self.tiles as f64)
    }

    /// The nanoseconds of a multiply-add.
    pub fn nanos_each(&self) -> f64 {
        self.time.as_secs_f64() * 1e9 / f64::from(SIZE).powi(3)
    }
}

/// The words that runs in tiles of these sizes may change, and how many tiles there were.
struct Lent {
    sizes: TileSizes,
    d: Vec<u32>,
    work: Vec<u32>,
    tiles: u64,
}

impl Lent {
    fn new(c: &Contraction, [rows, cols, depth]: [u32; 3]) -> Self {
        let sizes = TileSizes { rows, cols, depth };
        Self { sizes, d: c.d.words.clone(), work: vec![0; sizes.work_words()], tiles: 0 }
    }

    fn run(&mut self, c: &Contraction) {
        self.tiles = c.run_all_tiles(&mut self.d, self.sizes, &mut self.work);
    }
}

/// All take turns and run equally often, so that they leave the same words.
pub fn all() -> Vec<InTiles> {
    eprintln!("measuring tile sizes");
    let c = shapes::matrices(SIZE, SIZE, SIZE);
    let mut lent = SIZES.map(|sizes| Lent::new(&c, sizes));
    let mut runs: Vec<_> = lent.iter_mut().map(|lent| || lent.run(&c)).collect();
    let times = best_of(PACE, &mut runs);
    drop(runs);
    assert!(lent[0].d != c.d.words, "tiles left D as it was");
    assert!(lent.iter().all(|other| other.d == lent[0].d), "tiles of different sizes leave different words");
    lent.iter().zip(times).map(|(lent, time)| InTiles { sizes: lent.sizes, tiles: lent.tiles, time }).collect()
}
