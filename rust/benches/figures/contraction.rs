//! A contraction with its words, and the engine's calls of it.

use nezgrak::{Layout, TileSizes};
use std::collections::BTreeMap;
use std::hint::black_box;

/// The tile that every case is run with: rows, columns, depth.
pub const TILE: TileSizes = TileSizes { rows: 64, cols: 64, depth: 128 };

pub struct Tensor {
    pub letters: &'static str,
    pub extents: Vec<u32>,
    pub strides: Vec<i32>,
    pub base: u32,
    pub words: Vec<u32>,
}

impl Tensor {
    /// A slice that ends with the layout's last entry, of words that depend on the seed only.
    fn random(letters: &'static str, extents: &[u32], strides: &[i32], base: u32, seed: u64) -> Self {
        let ahead = |(extent, stride): (&u32, &i32)| (*extent as usize - 1) * (*stride).max(0) as usize;
        let last = base as usize + extents.iter().zip(strides).map(ahead).sum::<usize>();
        let words = (0..=last as u64).map(|place| word(seed, place)).collect();
        Self { letters, extents: extents.to_vec(), strides: strides.to_vec(), base, words }
    }

    pub fn layout(&self) -> Layout {
        Layout::new(self.letters.as_bytes(), &self.extents, &self.strides, self.base)
    }

    fn read(&self) -> nezgrak::Tensor<'_> {
        nezgrak::Tensor::new(self.layout(), &self.words)
    }
}

/// D becomes alpha × the sum of A's entries × B's + beta × D.
pub struct Contraction {
    pub a: Tensor,
    pub b: Tensor,
    pub d: Tensor,
    pub alpha: u32,
    pub beta: u32,
}

/// A tensor's letters, extents, strides and base.
pub type Axes<'a> = (&'static str, &'a [u32], &'a [i32], u32);

impl Contraction {
    /// The compiler can't know anything of it. Beta is odd, so a wrong word stays wrong when D is contracted into again.
    pub fn random(a: Axes<'_>, b: Axes<'_>, d: Axes<'_>) -> Self {
        let tensor = |axes: Axes<'_>, seed| Tensor::random(axes.0, axes.1, axes.2, axes.3, seed);
        let (alpha, beta) = (0x9e37_79b9, 0x85eb_ca6b);
        black_box(Self { a: tensor(a, 1), b: tensor(b, 2), d: tensor(d, 3), alpha, beta })
    }

    /// The product of the extents of all labels.
    pub fn terms(&self) -> u64 {
        let axes = |tensor: &Tensor| tensor.letters.chars().zip(tensor.extents.clone()).collect::<Vec<_>>();
        let labels: BTreeMap<char, u32> = [&self.a, &self.b, &self.d].into_iter().flat_map(axes).collect();
        labels.values().map(|&extent| u64::from(extent)).product()
    }

    /// What the engine takes.
    pub fn lent(&self) -> nezgrak::Contraction<'_> {
        let (a, b, d) = (self.a.read(), self.b.read(), self.d.layout());
        nezgrak::Contraction::new(a, b, d).with_alpha(self.alpha).with_beta(self.beta)
    }

    /// The plain engine.
    pub fn contract(&self, d: &mut [u32]) {
        self.lent().contract(d).expect("an accepted contraction");
    }

    /// The tiled engine, all tiles in one call.
    pub fn contract_tiled(&self, d: &mut [u32], work: &mut [u32]) {
        self.run_all_tiles(d, TILE, work);
    }

    /// The same with tiles of any sizes. How many there are.
    pub fn run_all_tiles(&self, d: &mut [u32], sizes: TileSizes, work: &mut [u32]) -> u64 {
        let progress = self.lent().run_tiles(d, sizes, work, 0, u64::MAX).expect("an accepted contraction");
        assert!(progress.complete, "tiles are left");
        progress.done
    }
}

/// A word from a seed and a place (splitmix64).
fn word(seed: u64, place: u64) -> u32 {
    let mut z = (seed << 32 | place).wrapping_mul(0x9e37_79b9_7f4a_7c15);
    z = (z ^ z >> 30).wrapping_mul(0xbf58_476d_1ce4_e5b9);
    z = (z ^ z >> 27).wrapping_mul(0x94d0_49bb_1331_11eb);
    (z ^ z >> 31) as u32
}
