//! The model of tile calls and state questions: what the count of tiles done says of each word, panel by panel. No tile
//! is ever run here.

use super::case::Case;
use super::direct::{address, entry};
use super::groups::{Cut, Groups};
use super::questions::{first_no_of_state, first_no_of_tiles};
use super::request::{Ran, Request};
use nezgrak::{OutputIndex, TileSizes};

/// An output index: where its word is, C's entry where C is named, and what each panel sums for it.
struct Output {
    index: OutputIndex,
    place: usize,
    of_c: Option<u128>,
    panel_sums: Vec<u128>,
}

/// A contraction that passes questions 1 to 10, and 30.
pub struct Model {
    case: Case,
    groups: Groups,
    pub cut: Cut,
    outputs: Vec<Output>,
}

impl Model {
    pub fn of(case: &Case, sizes: TileSizes) -> Self {
        let groups = Groups::of(case);
        let cut = Cut::of(&groups, sizes);
        let mut model = Self { case: case.clone(), groups, cut, outputs: Vec::new() };
        model.outputs = model.indices().map(|index| model.output(index)).collect();
        model
    }

    /// Every output index. The walk is short where one group has size 0, however large the others are.
    pub fn indices(&self) -> impl Iterator<Item = OutputIndex> {
        let Cut { row, column, .. } = self.cut;
        let batch = if self.cut.total() == 0 { 0 } else { self.cut.batch };
        let of_batch = move |h| (0..column).flat_map(move |j| (0..row).map(move |i| OutputIndex::new(h, i, j)));
        (0..batch).flat_map(of_batch)
    }

    fn output(&self, index: OutputIndex) -> Output {
        let term = |k| {
            let values = self.groups.values_at_depth(index, k);
            entry(&self.case.a, &values) * entry(&self.case.b, &values)
        };
        let Cut { depth, tile_depth, panels, .. } = self.cut;
        let panel_sum = |panel| (panel * tile_depth..depth.min((panel + 1) * tile_depth)).map(term).sum();
        let of_c = self.case.c.as_ref().map(|c| entry(c, &self.groups.values(index)));
        Output { index, place: self.place(index), of_c, panel_sums: (0..panels).map(panel_sum).collect() }
    }

    /// The place in D's slice of an output index.
    pub fn place(&self, index: OutputIndex) -> usize {
        address(&self.case.d, &self.groups.values(index)) as usize
    }

    /// The number of the tile that brings a panel to an output index.
    fn number(&self, index: OutputIndex, panel: u64) -> u64 {
        let (column_block, row_block) = (index.column / self.cut.tile_cols, index.row / self.cut.tile_rows);
        self.cut.number(index.batch, column_block, panel, row_block)
    }

    /// Old 0, part 1 or final 2, after t tiles.
    pub fn state(&self, t: u64, index: OutputIndex) -> u32 {
        let done = (0..self.cut.panels).filter(|panel| self.number(index, *panel) < t).count() as u64;
        match done {
            0 => 0,
            all if all == self.cut.panels => 2,
            _ => 1,
        }
    }

    /// D's words when t tiles are done, of which those below `start` were done before D had the words `old`. With
    /// `start` 0 this is the rule for a whole list of calls.
    pub fn words(&self, old: &[u32], start: u64, t: u64) -> Vec<u32> {
        let mut words = old.to_vec();
        for output in &self.outputs {
            let ran = |panel: usize| (start..t).contains(&self.number(output.index, panel as u64));
            let sum: u128 = (0..output.panel_sums.len()).filter(|&p| ran(p)).map(|p| output.panel_sums[p]).sum();
            let old_word = u128::from(old[output.place]);
            let before = if ran(0) { u128::from(self.case.beta) * output.of_c.unwrap_or(old_word) } else { old_word };
            let whole = before + u128::from(self.case.alpha) * sum;
            words[output.place] = (whole % (1 << 32)) as u32;
        }
        words
    }

    /// The work slice after a call whose last tile was number n.
    pub fn work(&self, n: u64, work: &[u32]) -> Vec<u32> {
        let Cut { row, column, depth, tile_rows, tile_cols, tile_depth, .. } = self.cut;
        let [h, c, p, r] = self.cut.tile(n);
        let word = |entry: u128| entry as u32;
        let values = |i, j, k| self.groups.values_at_depth(OutputIndex::new(h, i, j), k);
        let of_a = |i, k| word(entry(&self.case.a, &values(i, 0, k)));
        let of_b = |j, k| word(entry(&self.case.b, &values(0, j, k)));
        let mut after = work.to_vec();
        for d in 0..tile_depth {
            let k = p * tile_depth + d;
            for (x, i) in (0..tile_rows).map(|x| (x, r * tile_rows + x)) {
                after[(x + tile_rows * d) as usize] = if i < row && k < depth { of_a(i, k) } else { 0 };
            }
            for (x, j) in (0..tile_cols).map(|x| (tile_rows * tile_depth + x, c * tile_cols + x)) {
                after[(x + tile_cols * d) as usize] = if j < column && k < depth { of_b(j, k) } else { 0 };
            }
        }
        after
    }

    /// What a tile call has to answer and to leave that passes every question, in a list of calls that began with the
    /// count `start` and the words `old`.
    pub fn ran(&self, r: &Request, start: u64, old: &[u32]) -> Ran {
        let count = r.budget.min(self.cut.total() - r.done);
        let done = r.done + count;
        let work = if count == 0 { r.work.clone() } else { self.work(done - 1, &r.work) };
        let complete = u32::from(done == self.cut.total());
        Ran { answer: 0, done, complete, words: self.words(old, start, done), work }
    }
}

/// What a single tile call has to answer and to leave.
pub fn outcome(r: &Request) -> Ran {
    match first_no_of_tiles(r) {
        0 => Model::of(&r.case, r.sizes).ran(r, r.done, &r.case.d.words),
        number => Ran::refused(r, number),
    }
}

/// What a single state question has to answer.
pub fn state(r: &Request) -> Result<u32, u32> {
    match first_no_of_state(r) {
        0 => Ok(Model::of(&r.case, r.sizes).state(r.done, r.index)),
        number => Err(number),
    }
}
