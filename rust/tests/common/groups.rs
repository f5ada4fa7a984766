//! The model's groups of labels, and how tiles cut them. Nothing is folded: a count's values are its digits.

use super::case::{Case, Tensor};
use super::direct::{address, Values};
use nezgrak::{OutputIndex, TileSizes};
use std::ops::Range;

/// Labels with their extents. The first one runs fastest.
pub struct Group(pub Vec<(u8, u32)>);

impl Group {
    /// The product of the extents, 0 with an extent 0.
    pub fn size(&self) -> u64 {
        self.0.iter().map(|(_, extent)| u64::from(*extent)).product()
    }

    /// Gives each label the value that it has at a count, which is below the size.
    pub fn set(&self, values: &mut Values, count: u64) {
        assert!(count < self.size(), "no count {count} in a group of size {}", self.size());
        let mut rest = count;
        for (letter, extent) in &self.0 {
            values[usize::from(*letter)] = (rest % u64::from(*extent)) as i64;
            rest /= u64::from(*extent);
        }
    }

    /// Where these counts are in a tensor.
    pub fn places(&self, t: &Tensor, counts: Range<u64>) -> Vec<i64> {
        let place = |count| {
            let mut values: Values = [0; 128];
            self.set(&mut values, count);
            address(t, &values)
        };
        counts.map(place).collect()
    }

    /// The step of these counts in a tensor where they are even, 0 where there is one or none.
    pub fn even_step(&self, t: &Tensor, counts: Range<u64>) -> Option<i64> {
        let places = self.places(t, counts);
        let steps: Vec<i64> = places.windows(2).map(|two| two[1] - two[0]).collect();
        let first = steps.first().copied().unwrap_or(0);
        steps.iter().all(|step| *step == first).then_some(first)
    }

    /// The counts of each block of this width.
    pub fn blocks(&self, width: u64) -> impl Iterator<Item = Range<u64>> {
        let size = self.size();
        (0..size.div_ceil(width)).map(move |block| block * width..size.min((block + 1) * width))
    }
}

pub struct Groups {
    pub batch: Group,
    pub row: Group,
    pub column: Group,
    pub depth: Group,
}

impl Groups {
    pub fn of(case: &Case) -> Self {
        let (of_d, of_a_and_b) = (in_order(&[&case.d]), in_order(&[&case.a, &case.b]));
        let has = |t: &Tensor, letter: u8| t.letters.contains(&letter);
        let is_batch = |letter| has(&case.a, letter) && has(&case.b, letter);
        let is_column = |letter| has(&case.b, letter) && !has(&case.a, letter);
        Self {
            batch: only(&of_d, is_batch),
            row: only(&of_d, |letter| !is_batch(letter) && !is_column(letter)),
            column: only(&of_d, is_column),
            depth: only(&of_a_and_b, |letter| !has(&case.d, letter)),
        }
    }

    /// The values of D's labels at an output index.
    pub fn values(&self, index: OutputIndex) -> Values {
        let mut values: Values = [0; 128];
        self.batch.set(&mut values, index.batch);
        self.row.set(&mut values, index.row);
        self.column.set(&mut values, index.column);
        values
    }

    /// The values of all labels, with a depth count too.
    pub fn values_at_depth(&self, index: OutputIndex, depth: u64) -> Values {
        let mut values = self.values(index);
        self.depth.set(&mut values, depth);
        values
    }
}

/// The different labels, each where it first appears.
pub fn in_order(tensors: &[&Tensor]) -> Vec<(u8, u32)> {
    let mut labels: Vec<(u8, u32)> = Vec::new();
    for (letter, extent) in tensors.iter().flat_map(|t| t.letters.iter().zip(&t.extents)) {
        if labels.iter().all(|(seen, _)| seen != letter) {
            labels.push((*letter, *extent));
        }
    }
    labels
}

fn only(labels: &[(u8, u32)], belongs: impl Fn(u8) -> bool) -> Group {
    Group(labels.iter().copied().filter(|(letter, _)| belongs(*letter)).collect())
}

/// The sizes of the groups, those of a tile, and how many blocks there are of each. Depth size 0 counts as one panel.
#[derive(Clone, Copy)]
pub struct Cut {
    pub batch: u64,
    pub row: u64,
    pub column: u64,
    pub depth: u64,
    pub tile_rows: u64,
    pub tile_cols: u64,
    pub tile_depth: u64,
    pub row_blocks: u64,
    pub column_blocks: u64,
    pub panels: u64,
}

impl Cut {
    pub fn of(groups: &Groups, sizes: TileSizes) -> Self {
        let (row, column, depth) = (groups.row.size(), groups.column.size(), groups.depth.size());
        let [tile_rows, tile_cols, tile_depth] = [sizes.rows, sizes.cols, sizes.depth].map(u64::from);
        Self {
            batch: groups.batch.size(),
            row,
            column,
            depth,
            tile_rows,
            tile_cols,
            tile_depth,
            row_blocks: row.div_ceil(tile_rows),
            column_blocks: column.div_ceil(tile_cols),
            panels: if depth == 0 { 1 } else { depth.div_ceil(tile_depth) },
        }
    }

    pub fn total(&self) -> u64 {
        self.batch * self.column_blocks * self.panels * self.row_blocks
    }

    pub fn number(&self, batch: u64, column_block: u64, panel: u64, row_block: u64) -> u64 {
        ((batch * self.column_blocks + column_block) * self.panels + panel) * self.row_blocks + row_block
    }

    /// Batch count, column block, panel and row block of a tile.
    pub fn tile(&self, n: u64) -> [u64; 4] {
        let Self { row_blocks, panels, column_blocks, .. } = *self;
        let (strip, row_block) = (n / row_blocks, n % row_blocks);
        let (strips, panel) = (strip / panels, strip % panels);
        let tile = [strips / column_blocks, strips % column_blocks, panel, row_block];
        assert_eq!(self.number(tile[0], tile[1], tile[2], tile[3]), n, "the tile of a number");
        tile
    }
}
