//! A tile call and a state question as they are handed in, and what a tile call answers and leaves.

use super::case::Case;
use nezgrak::{OutputIndex, TileSizes};
use std::fmt;

#[derive(Clone)]
pub struct Request {
    pub case: Case,
    pub sizes: TileSizes,
    pub done: u64,
    /// Of a tile call.
    pub budget: u64,
    /// Of a tile call.
    pub work: Vec<u32>,
    /// Of a state question.
    pub index: OutputIndex,
}

impl fmt::Debug for Request {
    fn fmt(&self, f: &mut fmt::Formatter<'_>) -> fmt::Result {
        let Self { case, sizes, done, budget, work, index } = self;
        write!(f, "{case:?}, {sizes:?}, done {done}, budget {budget}, {} words of work, {index:?}", work.len())
    }
}

/// How many words of work a tile needs, as a whole number.
pub fn work_needed(sizes: TileSizes) -> u128 {
    let [rows, cols, depth] = [sizes.rows, sizes.cols, sizes.depth].map(u128::from);
    rows * depth + depth * cols
}

#[derive(Clone, PartialEq)]
pub struct Ran {
    pub answer: u32,
    pub done: u64,
    pub complete: u32,
    pub words: Vec<u32>,
    pub work: Vec<u32>,
}

impl Ran {
    /// The count as given, and no word changed.
    pub fn refused(r: &Request, answer: u32) -> Self {
        Self { answer, done: r.done, complete: 0, words: r.case.d.words.clone(), work: r.work.clone() }
    }
}
