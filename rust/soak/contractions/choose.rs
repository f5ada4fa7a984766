//! What a call is handed beside the contraction: tile sizes, counts, budgets, work slices and indices.

use crate::common::groups::Cut;
use crate::common::panels::Model;
use crate::common::request::work_needed;
use crate::common::rng::Rng;
use nezgrak::{OutputIndex, TileSizes};

/// Mostly small, so that there are several tiles, and up to the limits; one in 20 is not allowed.
pub fn sizes(rng: &mut Rng) -> TileSizes {
    let mut size = |limit: u32| {
        let any = 1 + rng.below(limit as usize) as u32;
        rng.pick(&[1, 1, 1, 1, 1, 2, 2, 2, 3, 4, 5, 8, any, limit])
    };
    let mut sizes = TileSizes { rows: size(64), cols: size(64), depth: size(128) };
    match rng.below(60) {
        0 => sizes.rows = rng.pick(&[0, 65, 1 << 31, u32::MAX]),
        1 => sizes.cols = rng.pick(&[0, 65, 1 << 31, u32::MAX]),
        2 => sizes.depth = rng.pick(&[0, 129, 1 << 31, u32::MAX]),
        _ => {}
    }
    sizes
}

/// The sizes that counts and indices are chosen by.
#[derive(Clone, Copy)]
pub struct Bounds {
    pub total: u64,
    batch: u64,
    row: u64,
    column: u64,
}

impl Bounds {
    /// A contraction that is refused has no model. Any bounds will do for it.
    pub fn of(model: Option<&Model>) -> Self {
        let any = Self { total: 4, batch: 2, row: 3, column: 3 };
        let of_cut = |cut: &Cut| Self { total: cut.total(), batch: cut.batch, row: cut.row, column: cut.column };
        model.map_or(any, |model| of_cut(&model.cut))
    }

    /// A count of tiles done at which a list may begin: mostly 0.
    pub fn start(&self, rng: &mut Rng) -> u64 {
        let any = self.any_count(rng);
        rng.pick(&[0, 0, 0, 0, 0, any, self.total])
    }

    pub fn any_count(&self, rng: &mut Rng) -> u64 {
        rng.below(self.total as usize + 1) as u64
    }

    pub fn above_total(&self, rng: &mut Rng) -> u64 {
        rng.pick(&[self.total + 1, self.total + 2, 1 << 32, 1 << 63, u64::MAX])
    }

    /// Mostly less than what is left, in one case of four all of it or more.
    pub fn budget(&self, rng: &mut Rng, done: u64) -> u64 {
        let left = self.total.saturating_sub(done);
        let some = rng.below(left as usize + 1) as u64;
        let few = [0, 1, 1, 1, 2, 3, some / 8, some / 4, some, left.saturating_sub(1)];
        let many = [left, left + 1, 1 << 32, u64::MAX];
        if rng.once_in(4) {
            rng.pick(&many)
        } else {
            rng.pick(&few)
        }
    }

    /// Mostly in range. Once in eight one of the three counts is outside. Of a group of size 0 every count is.
    pub fn index(&self, rng: &mut Rng) -> OutputIndex {
        let sizes = [self.batch, self.row, self.column];
        let mut counts = sizes.map(|size| {
            let any = rng.below(size.max(1) as usize) as u64;
            rng.pick(&[0, any, any, size.saturating_sub(1)])
        });
        if rng.once_in(8) {
            let which = rng.below(3);
            counts[which] = rng.pick(&[sizes[which], sizes[which] + 1, 1 << 32, u64::MAX]);
        }
        OutputIndex::new(counts[0], counts[1], counts[2])
    }
}

/// Fresh words. The slice is exact or longer, and once in eight too short.
pub fn work(rng: &mut Rng, sizes: TileSizes) -> Vec<u32> {
    let needed = work_needed(sizes).min(20_000) as usize;
    let short = rng.pick(&[0, needed / 2, needed.saturating_sub(1)]);
    let length = rng.pick(&[short, needed, needed, needed, needed, needed, needed + 1, needed + 70]);
    rng.words(length)
}
