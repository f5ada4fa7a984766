//! A list of tile calls and state questions in fixed point, with everything that has to hold after each of them.

use super::case::Case;
use super::fixed_call::{ask, run, same_fixed};
use super::fixed_panels::{Before, FixedModel};
use super::fixed_questions::first_no_of_fixed_tiles;
use super::fixed_request::{FixedRan, FixedRequest};
use super::request::{work_needed, Request};
use super::rng::Rng;
use nezgrak::{OutputIndex, TileSizes};

pub struct FixedList {
    pub fixed: FixedModel,
    now: FixedRequest,
    before: Before,
}

impl FixedList {
    /// A list that begins with a count of tiles done and these sums; the contraction passes every question.
    pub fn new(case: &Case, shift: u32, sizes: TileSizes, start: u64, sums: Vec<i64>) -> Self {
        let (fixed, index) = (FixedModel::of(case, shift, sizes), OutputIndex::new(0, 0, 0));
        let request = Request { case: case.clone(), sizes, done: start, budget: 0, work: Vec::new(), index };
        let now = FixedRequest { request, shift, sums };
        let before = Before::of(&now);
        Self { fixed, now, before }
    }

    /// The number t.
    pub fn done(&self) -> u64 {
        self.now.request.done
    }

    pub fn left(&self) -> u64 {
        self.fixed.model.cut.total() - self.done()
    }

    pub fn words(&self) -> &[u32] {
        &self.now.request.case.d.words
    }

    pub fn sums(&self) -> &[i64] {
        &self.now.sums
    }

    pub fn work_needed(&self) -> usize {
        work_needed(self.now.request.sizes) as usize
    }

    /// A tile call with its own work slice.
    pub fn run(&mut self, budget: u64, work: Vec<u32>) {
        self.now.request.work = work;
        self.now.request.budget = budget;
        let found = run(&self.now);
        same_fixed(&self.now, &found, &self.fixed.ran(&self.now, &self.before));
        self.now.request.done = found.ran.done;
        self.now.request.case.d.words = found.ran.words;
        self.now.sums = found.sums;
    }

    /// A tile call with random words in a work slice that has exactly what is needed.
    pub fn step(&mut self, budget: u64, rng: &mut Rng) {
        let work = rng.words(self.work_needed());
        self.run(budget, work);
    }

    /// A tile call that is refused: an edit spoils what is handed in, this once. It leaves t, D, the sums and its own work
    /// slice as they were. Gives the number.
    pub fn refused(&mut self, budget: u64, work: Vec<u32>, spoil: impl FnOnce(&mut FixedRequest)) -> u32 {
        let mut spoilt = self.now.clone();
        spoilt.request.work = work;
        spoilt.request.budget = budget;
        spoil(&mut spoilt);
        let number = first_no_of_fixed_tiles(&spoilt);
        assert!(number != 0, "not refused: {spoilt:?}");
        same_fixed(&spoilt, &run(&spoilt), &FixedRan::refused(&spoilt, number));
        number
    }

    /// A state question for any index.
    pub fn ask(&mut self, index: OutputIndex) -> Result<u32, u32> {
        self.now.request.index = index;
        let cut = &self.fixed.model.cut;
        let inside = index.batch < cut.batch && index.row < cut.row && index.column < cut.column;
        let expected = if inside { Ok(self.fixed.model.state(self.done(), index)) } else { Err(13) };
        assert_eq!(ask(&self.now.request), expected, "the state by {:?}", self.now);
        expected
    }
}

/// Runs all tiles in this many calls, or one for each tile where there are fewer, and one where there are none. Gives D's
/// words and the sums.
pub fn run_in(case: &Case, shift: u32, sizes: TileSizes, calls: u64) -> (Vec<u32>, Vec<i64>) {
    let mut rng = Rng::new(calls);
    let sums = (0..case.d.words.len()).map(|_| rng.next() as i64).collect();
    let mut list = FixedList::new(case, shift, sizes, 0, sums);
    let budget = list.left().div_ceil(calls);
    list.step(budget, &mut rng);
    while list.left() > 0 {
        list.step(budget, &mut rng);
    }
    (list.words().to_vec(), list.sums().to_vec())
}
