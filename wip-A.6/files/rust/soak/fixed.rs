//! One contraction of the run in fixed point: the plain call, then a list of tile calls and state questions. D's memory is
//! lent once for the whole list; after each call every word, every sum and every answer is compared with the model.

use crate::common::case::{same_words, Case, Outcome};
use crate::common::fixed::outcome;
use crate::common::fixed_call::{run_lent, run_plain_flat, same_fixed};
use crate::common::fixed_make::{accepted_fixed, shift, spoil_fixed, sums};
use crate::common::fixed_panels::{Before, FixedModel};
use crate::common::fixed_questions::{fixed_tiles_after, without_c};
use crate::common::fixed_request::{FixedRan, FixedRequest};
use crate::common::groups::Groups;
use crate::common::guard::Guarded;
use crate::common::lent::Lent;
use crate::common::panels::Model;
use crate::common::questions::{first_no, first_ten_after, state_after};
use crate::common::request::Request;
use crate::common::rng::Rng;
use crate::contractions::calls;
use crate::contractions::choose::{self, Bounds};
use crate::contractions::make::{damage, is_long, kind};
use crate::figures::Figures;
use nezgrak::OutputIndex;

/// Makes a contraction in fixed point from these random numbers, one in three damaged, and checks every call on it.
pub fn check(rng: &mut Rng, figures: &mut Figures) {
    let r = request(rng);
    let plain = check_plain(&r, rng, figures);
    let mut list = List::new(r, &plain, rng, figures);
    list.check();
    list.compare_with(&plain);
}

/// Of a damage that leaves too many terms only the shift and the sums are kept.
fn request(rng: &mut Rng) -> FixedRequest {
    let kind = kind(rng);
    let case = without_c(&accepted_fixed(rng, kind));
    let (sizes, sums) = (choose::sizes(rng), sums(rng, case.d.words.len()));
    let request = Request { case, sizes, done: 0, budget: 0, work: Vec::new(), index: OutputIndex::new(0, 0, 0) };
    let sound = FixedRequest { request, shift: shift(rng), sums };
    let mut damaged = sound.clone();
    match rng.below(6) {
        0 => spoil_fixed(rng, &mut damaged),
        1 => damage(rng, &mut damaged.request.case),
        _ => {}
    }
    let is_deep = outcome_is_long(&damaged.request.case);
    FixedRequest { request: if is_deep { sound.request } else { damaged.request }, ..damaged }
}

/// Whether the model would sum too many terms. It sums none where 34 refuses.
fn outcome_is_long(case: &Case) -> bool {
    is_long(case) && Groups::of(case).depth.size() <= 65_536
}

/// The plain call against the direct sum.
fn check_plain(r: &FixedRequest, rng: &mut Rng, figures: &mut Figures) -> Outcome {
    let case = &r.request.case;
    let found = run_plain_flat(&mut calls::lend(case, rng), case, r.shift);
    let expected = outcome(case, r.shift);
    assert_eq!(found.answer, expected.answer, "the answer to {r:?}");
    same_words("D", r, &found.words, &expected.words);
    figures.note_fixed_plain(&found);
    found
}

struct List<'a> {
    rng: &'a mut Rng,
    figures: &'a mut Figures,
    lent: Lent,
    /// What questions 1 to 9 say of the contraction.
    first_nine: u32,
    /// None where questions 1 to 10, 34 or 35 refuse.
    fixed: Option<FixedModel>,
    bounds: Bounds,
    /// What the next call is handed, with D's words and the sums as they are now.
    now: FixedRequest,
    before: Before,
}

impl<'a> List<'a> {
    fn new(mut now: FixedRequest, plain: &Outcome, rng: &'a mut Rng, figures: &'a mut Figures) -> Self {
        let (first_nine, sizes) = (first_no(&now.request.case), now.request.sizes);
        let is_cut = first_ten_after(first_nine, sizes) == 0;
        let model = is_cut.then(|| Model::without_sums(&now.request.case, sizes));
        let fixed = (is_cut && plain.answer == 0).then(|| FixedModel::of(&now.request.case, now.shift, sizes));
        let bounds = Bounds::of(model.as_ref());
        now.request.done = bounds.start(rng);
        let (lent, before) = (calls::lend(&now.request.case, rng), Before::of(&now));
        Self { rng, figures, lent, first_nine, fixed, bounds, now, before }
    }

    /// A few turns, mostly no more once all tiles are done. A contraction that is refused gets one.
    fn check(&mut self) {
        for _ in 0..1 + self.rng.below(8) {
            self.run();
            (0..1 + self.rng.below(3)).for_each(|_| self.ask());
            let is_over = self.fixed.is_none() || self.now.request.done == self.bounds.total;
            if is_over && !self.rng.once_in(4) {
                return;
            }
        }
    }

    /// A tile call with its own budget and work slice. One in eight has fewer sums, another shift that 34 refuses, or a
    /// count above the total, this once.
    fn run(&mut self) {
        let of_list = self.now.clone();
        self.now.request.budget = self.bounds.budget(self.rng, self.now.request.done);
        self.now.request.work = choose::work(self.rng, self.now.request.sizes);
        match self.rng.below(24) {
            0 => self.now.sums.truncate(self.rng.below(self.now.sums.len() + 1)),
            1 => self.now.shift = 16 + self.rng.word() % 64,
            2 => self.now.request.done = self.bounds.above_total(self.rng),
            _ => {}
        }
        let (expected, found) = (self.expected_run(), self.made());
        same_fixed(&self.now, &found, &expected);
        self.figures.note_fixed_run(&self.now, &found, self.bounds.total);
        if found.ran.answer == 0 {
            self.now.request.done = found.ran.done;
            self.now.request.case.d.words = found.ran.words;
            self.now.sums = [&found.sums, &of_list.sums[found.sums.len()..]].concat();
        } else {
            (self.now.request.done, self.now.shift, self.now.sums) =
                (of_list.request.done, of_list.shift, of_list.sums);
        }
    }

    fn made(&mut self) -> FixedRan {
        let (now, rng) = (&self.now, &mut *self.rng);
        let work = Guarded::shifted(&now.request.work, rng.below(4));
        let sums = Guarded::shifted(&now.sums, rng.below(2));
        run_lent(&mut self.lent, now, work, sums, rng.next(), rng.word())
    }

    fn expected_run(&self) -> FixedRan {
        match (fixed_tiles_after(self.first_nine, &self.now), &self.fixed) {
            (0, Some(fixed)) => {
                let mut ran = fixed.ran(&self.now, &self.before);
                ran.sums.truncate(self.now.sums.len());
                ran
            }
            (0, None) => panic!("the questions disagree on {:?}", self.now),
            (number, _) => FixedRan::refused(&self.now, number),
        }
    }

    /// A state question, at times with a count above the total.
    fn ask(&mut self) {
        let mut r = self.now.request.clone();
        if self.rng.once_in(16) {
            r.done = self.bounds.above_total(self.rng);
        }
        r.index = self.bounds.index(self.rng);
        let expected = match state_after(self.first_nine, &r) {
            0 => Ok(Model::without_sums(&r.case, r.sizes).state(r.done, r.index)),
            number => Err(number),
        };
        let found = calls::state(&self.lent, &r, self.rng);
        assert_eq!(found, expected, "the state by {r:?}");
    }

    /// After the last tile of a list that began with the first one, D is the plain call's.
    fn compare_with(&mut self, plain: &Outcome) {
        let request = &self.now.request;
        let is_whole = self.fixed.is_some() && self.before.start == 0 && request.done == self.bounds.total;
        if is_whole {
            same_words("D", &self.now, &request.case.d.words, &plain.words);
        }
        self.figures.fixed.note("lists from the first tile to the last", is_whole);
    }
}
