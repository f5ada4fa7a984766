//! A list of tile calls and state questions on one contraction. D's memory is lent once for the whole list; after each
//! call every word and every answer is compared with the model, which knows the count of tiles done and runs none.

use super::calls;
use super::choose::{self, Bounds};
use crate::common::case::{same_words, Case, Outcome};
use crate::common::lent::Lent;
use crate::common::panels::Model;
use crate::common::questions::{first_ten_after, state_after, tiles_after};
use crate::common::request::{Ran, Request};
use crate::common::rng::Rng;
use crate::common::tile_call::same;
use crate::figures::Figures;
use nezgrak::OutputIndex;

pub struct List<'a> {
    rng: &'a mut Rng,
    figures: &'a mut Figures,
    lent: Lent,
    /// What questions 1 to 9, and 30, say of the contraction.
    first_nine: u32,
    /// None where questions 1 to 10 refuse.
    pub model: Option<Model>,
    bounds: Bounds,
    /// What the next call is handed, with D's words as they are now.
    request: Request,
    /// The count that the list began with, and D's words then.
    start: u64,
    old: Vec<u32>,
    /// Whether all tiles below the count were run on the words of the contraction.
    from_first: bool,
}

impl<'a> List<'a> {
    pub fn new(case: &Case, first_nine: u32, rng: &'a mut Rng, figures: &'a mut Figures) -> Self {
        let (sizes, index) = (choose::sizes(rng), OutputIndex::new(0, 0, 0));
        let mut request = Request { case: case.clone(), sizes, done: 0, budget: 0, work: Vec::new(), index };
        let model = (first_ten_after(first_nine, sizes) == 0).then(|| Model::of(case, sizes));
        let bounds = Bounds::of(model.as_ref());
        let start = bounds.start(rng);
        request.done = start;
        let (lent, old) = (calls::lend(case, rng), case.d.words.clone());
        Self { rng, figures, lent, first_nine, model, bounds, request, start, old, from_first: start == 0 }
    }

    /// A few turns, mostly no more once all tiles are done. A contraction that is refused gets one.
    pub fn check(&mut self) {
        for _ in 0..1 + self.rng.below(8) {
            self.run();
            (0..1 + self.rng.below(3)).for_each(|_| self.ask());
            let is_over = self.model.is_none() || self.request.done == self.bounds.total;
            if is_over && !self.rng.once_in(4) {
                return;
            }
        }
    }

    /// A tile call with its own budget and work slice. Its count is that of the list, or invented.
    fn run(&mut self) {
        let (turn, above_total) = (self.rng.below(16), self.bounds.above_total(self.rng));
        match turn {
            0 => self.begin_again(),
            1 => self.run_with(above_total),
            _ => {}
        }
        self.figures.calls.note("lists begun again at an invented count", turn == 0 && self.model.is_some());
        self.run_with(self.request.done);
    }

    /// From here on the list is one that begins with another count, up to the total, and D's words as they are.
    fn begin_again(&mut self) {
        self.start = self.bounds.any_count(self.rng);
        self.old = self.request.case.d.words.clone();
        self.request.done = self.start;
        self.from_first = false;
    }

    fn run_with(&mut self, done: u64) {
        let of_list = self.request.done;
        self.request.done = done;
        self.request.budget = self.bounds.budget(self.rng, done);
        self.request.work = choose::work(self.rng, self.request.sizes);
        let expected = self.expected_run();
        let found = calls::run_tiles(&mut self.lent, &self.request, self.rng);
        same(&self.request, &found, &expected);
        self.figures.note_run(&self.request, &found, self.bounds.total);
        self.request.done = if found.answer == 0 { found.done } else { of_list };
        self.request.case.d.words = found.words;
    }

    fn expected_run(&self) -> Ran {
        match (tiles_after(self.first_nine, &self.request), &self.model) {
            (0, Some(model)) => model.ran(&self.request, self.start, &self.old),
            (0, None) => panic!("the questions disagree on {:?}", self.request),
            (number, _) => Ran::refused(&self.request, number),
        }
    }

    /// A state question, at times with a count above the total.
    fn ask(&mut self) {
        let of_list = self.request.done;
        if self.rng.once_in(16) {
            self.request.done = self.bounds.above_total(self.rng);
        }
        self.request.index = self.bounds.index(self.rng);
        let expected = self.expected_state();
        let found = calls::state(&self.lent, &self.request, self.rng);
        assert_eq!(found, expected, "the state by {:?}", self.request);
        self.figures.note_state(found, self.model.as_ref().map(|model| &model.cut));
        self.request.done = of_list;
    }

    fn expected_state(&self) -> Result<u32, u32> {
        match (state_after(self.first_nine, &self.request), &self.model) {
            (0, Some(model)) => Ok(model.state(self.request.done, self.request.index)),
            (0, None) => panic!("the questions disagree on {:?}", self.request),
            (number, _) => Err(number),
        }
    }

    /// A word that is final is the plain call's, and after the last tile all words are.
    pub fn compare_with(&mut self, plain: &Outcome) {
        let words = &self.request.case.d.words;
        let places = self.final_places();
        let same_word = |place: &usize| words[*place] == plain.words[*place];
        assert!(places.iter().all(same_word), "a final word is not the plain call's: {:?}", self.request);
        let is_whole = self.model.is_some() && self.from_first && self.request.done == self.bounds.total;
        if is_whole {
            same_words("D", &self.request, words, &plain.words);
        }
        self.figures.calls.add("final words compared with the plain call", places.len());
        self.figures.calls.note("lists from the first tile to the last", is_whole);
    }

    /// Where the final words of D are, if the list began with tile 0.
    fn final_places(&self) -> Vec<usize> {
        match &self.model {
            Some(model) if self.from_first => {
                let is_final = |index: &OutputIndex| model.state(self.request.done, *index) == 2;
                model.indices().filter(is_final).map(|index| model.place(index)).collect()
            }
            _ => Vec::new(),
        }
    }
}
