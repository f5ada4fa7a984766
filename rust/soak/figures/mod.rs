//! What a run covered. A class that stays empty makes the run fail.

pub mod document;
mod tables;

use crate::common::case::Outcome;
use crate::common::delay::Answer;
use crate::common::groups::Cut;
use crate::common::request::{work_needed, Ran, Request};
use crate::common::seen::Seen;
use std::collections::{BTreeMap, BTreeSet};
pub use tables::text;

/// How often each number was the answer.
#[derive(Default)]
pub struct Answers(BTreeMap<u32, usize>);

/// The numbers that the calls can answer, in the order of the questions; 0 where a call is accepted.
pub const ALL: [u32; 17] = [0, 1, 2, 3, 4, 5, 6, 30, 7, 8, 9, 10, 11, 12, 13, 31, 32];
/// Those that each call can answer.
pub const PLAIN: [u32; 11] = [0, 1, 2, 3, 4, 5, 6, 30, 7, 8, 9];
pub const TILE: [u32; 14] = [0, 1, 2, 3, 4, 5, 6, 30, 7, 8, 9, 10, 11, 12];
pub const STATE: [u32; 14] = [0, 1, 2, 3, 4, 5, 6, 30, 7, 8, 9, 10, 12, 13];
pub const DELAY: [u32; 3] = [0, 31, 32];
/// The numbers by which the program can refuse a file.
pub const FILE: [u32; 15] = [1, 3, 4, 5, 6, 30, 7, 8, 9, 10, 12, 20, 21, 22, 23];

impl Answers {
    pub fn count(&self, number: u32) -> usize {
        self.0.get(&number).copied().unwrap_or(0)
    }

    fn add(&mut self, number: u32, more: usize) {
        *self.0.entry(number).or_default() += more;
    }

    fn add_all(&mut self, other: &Self) {
        other.0.iter().for_each(|(number, more)| self.add(*number, *more));
    }

    /// Which of these numbers were no answer.
    fn missing<'a>(&'a self, numbers: &'a [u32]) -> impl Iterator<Item = u32> + 'a {
        numbers.iter().copied().filter(|number| self.count(*number) == 0)
    }
}

#[derive(Default)]
pub struct Figures {
    pub plain: Answers,
    pub tile: Answers,
    pub state: Answers,
    pub delay: Answers,
    /// What the lists of calls had.
    pub calls: Seen,
    /// What the accepted contractions had.
    pub features: Seen,
    /// How the tiles of the lists cut them.
    pub cuts: Seen,
    /// What the recordings had.
    pub recordings: Seen,
    /// How job files were damaged.
    pub damages: Seen,
    /// What the program answered.
    pub texts: Seen,
    /// The bytes that were changed alone: number of the file before the damage, and place.
    pub places: BTreeSet<(usize, usize)>,
    /// Job files whose sums are too long for the model.
    pub left_out: usize,
}

impl Figures {
    pub fn note_plain(&mut self, found: &Outcome) {
        self.plain.add(found.answer, 1);
        self.calls.add("words of D compared", found.words.len());
    }

    pub fn note_delay(&mut self, found: Answer) {
        self.delay.add(found.err().unwrap_or(0), 1);
    }

    /// The answer to a state question. A contraction that is refused is not cut.
    pub fn note_state(&mut self, found: Result<u32, u32>, cut: Option<&Cut>) {
        self.state.add(found.err().unwrap_or(0), 1);
        for (number, name) in ["old", "part", "final"].iter().enumerate() {
            self.calls.note(&format!("states that were {name}"), found == Ok(number as u32));
        }
        let (no_tiles, no_terms) = cut.map_or((false, false), |cut| (cut.total() == 0, cut.depth == 0));
        self.calls.note("state questions refused by 13 where there are no tiles", no_tiles && found == Err(13));
        self.calls.note("states that were old with depth size 0", no_terms && found == Ok(0));
        self.calls.note("states that were final with depth size 0", no_terms && found == Ok(2));
    }

    pub fn note_run(&mut self, r: &Request, found: &Ran, total: u64) {
        let (calls, needed) = (&mut self.calls, work_needed(r.sizes));
        self.tile.add(found.answer, 1);
        calls.add("words of D compared", found.words.len());
        calls.add("words of work compared", found.work.len());
        calls.note("tile calls whose work slice was one word too short", r.work.len() as u128 + 1 == needed);
        if found.answer != 0 {
            return;
        }
        let left = total - r.done;
        calls.add("tiles run", (found.done - r.done) as usize);
        calls.note("tile calls with C", r.case.c.is_some());
        calls.note("tile calls with budget 0", r.budget == 0);
        calls.note("tile calls with budget 1", r.budget == 1);
        calls.note("tile calls with a budget below what was left", (2..left).contains(&r.budget));
        calls.note("tile calls with a budget of what was left", r.budget == left && left > 0);
        calls.note("tile calls with a budget over what was left", r.budget > left && left > 0);
        calls.note("tile calls with budget 2^64 - 1", r.budget == u64::MAX);
        calls.note("tile calls after the last tile", left == 0 && total > 0);
        calls.note("tile calls where there are no tiles", total == 0);
        calls.note("tile calls with a budget where there are no tiles", total == 0 && r.budget > 0);
        calls.note("tile calls with an exact work slice", r.work.len() as u128 == needed);
        calls.note("tile calls with a longer work slice", r.work.len() as u128 > needed);
    }

    pub fn add(&mut self, other: &Self) {
        self.plain.add_all(&other.plain);
        self.tile.add_all(&other.tile);
        self.state.add_all(&other.state);
        self.delay.add_all(&other.delay);
        add_seen(&mut self.calls, &other.calls);
        add_seen(&mut self.features, &other.features);
        add_seen(&mut self.cuts, &other.cuts);
        add_seen(&mut self.recordings, &other.recordings);
        add_seen(&mut self.damages, &other.damages);
        add_seen(&mut self.texts, &other.texts);
        self.places.extend(&other.places);
        self.left_out += other.left_out;
    }

    /// The classes that have to be filled and are not.
    pub fn empty(&self) -> Vec<String> {
        let by_number = |call: &str, answers: &Answers, numbers: &[u32]| -> Vec<String> {
            answers.missing(numbers).map(|number| format!("{call} answered by {number}")).collect()
        };
        let seen = [&self.calls, &self.features, &self.cuts, &self.recordings, &self.damages, &self.texts];
        let by_name = seen.into_iter().flat_map(Seen::counts).filter(|(_, count)| *count == 0);
        let answers = [
            by_number("plain calls", &self.plain, &PLAIN),
            by_number("tile calls", &self.tile, &TILE),
            by_number("state questions", &self.state, &STATE),
            by_number("delay calls", &self.delay, &DELAY),
        ];
        answers.into_iter().flatten().chain(by_name.map(|(name, _)| name.to_string())).collect()
    }
}

fn add_seen(own: &mut Seen, more: &Seen) {
    more.counts().for_each(|(name, count)| own.add(name, count));
}
