//! A list of tile calls and state questions, with everything that has to hold after each of them.

use super::case::Case;
use super::panels::Model;
use super::request::{work_needed, Ran, Request};
use super::rng::Rng;
use super::tile_call::{ask, run, same};
use nezgrak::{OutputIndex, TileSizes};

pub struct List {
    pub model: Model,
    request: Request,
    start: u64,
    /// D's words before the first call.
    old: Vec<u32>,
}

impl List {
    /// A list that begins with a count of tiles done; the case passes questions 1 to 9 and 30, the sizes 10, the
    /// count 12.
    pub fn new(case: &Case, sizes: TileSizes, start: u64) -> Self {
        let (model, old, index) = (Model::of(case, sizes), case.d.words.clone(), OutputIndex::new(0, 0, 0));
        let request = Request { case: case.clone(), sizes, done: start, budget: 0, work: Vec::new(), index };
        Self { model, request, start, old }
    }

    /// The number t.
    pub fn done(&self) -> u64 {
        self.request.done
    }

    pub fn left(&self) -> u64 {
        self.model.cut.total() - self.request.done
    }

    pub fn words(&self) -> &[u32] {
        &self.request.case.d.words
    }

    pub fn work_needed(&self) -> usize {
        work_needed(self.request.sizes) as usize
    }

    /// A tile call with its own work slice.
    pub fn run(&mut self, budget: u64, work: Vec<u32>) -> u32 {
        self.request.work = work;
        self.request.budget = budget;
        let expected = if self.request.work.len() < self.work_needed() {
            Ran::refused(&self.request, 11)
        } else {
            self.model.ran(&self.request, self.start, &self.old)
        };
        let found = run(&self.request);
        same(&self.request, &found, &expected);
        self.request.done = found.done;
        self.request.case.d.words = found.words;
        found.answer
    }

    /// A tile call with random words in a work slice that has exactly what is needed.
    pub fn step(&mut self, budget: u64, rng: &mut Rng) {
        let work = rng.words(self.work_needed());
        assert_eq!(self.run(budget, work), 0);
    }

    /// A state question for any index.
    pub fn ask(&mut self, index: OutputIndex) -> Result<u32, u32> {
        self.request.index = index;
        let cut = &self.model.cut;
        let inside = index.batch < cut.batch && index.row < cut.row && index.column < cut.column;
        let expected = if inside { Ok(self.model.state(self.request.done, index)) } else { Err(13) };
        assert_eq!(ask(&self.request), expected, "the state by {:?}", self.request);
        expected
    }

    /// The states of all output indices.
    pub fn ask_all(&mut self) -> Vec<u32> {
        let indices: Vec<_> = self.model.indices().collect();
        indices.into_iter().map(|index| self.ask(index).expect("an index in range")).collect()
    }
}
