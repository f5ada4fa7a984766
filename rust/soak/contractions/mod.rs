//! One contraction of the run: the plain call, then lists of tile calls and state questions.

mod calls;
mod choose;
mod list;
mod make;
mod notes;

use crate::common::case::{same_words, Case, Outcome};
use crate::common::direct;
use crate::common::rng::Rng;
use crate::figures::Figures;
use list::List;

/// Makes a contraction from these random numbers and checks every call on it.
pub fn check(rng: &mut Rng, figures: &mut Figures) {
    let case = make::contraction(rng);
    let plain = check_plain(&case, rng, figures);
    let lists = if plain.answer == 0 { 2 } else { 1 };
    (0..lists).for_each(|_| check_list(&case, &plain, rng, figures));
    if plain.answer == 0 {
        notes::note_contraction(&mut figures.features, &case);
    }
}

/// A list of tile calls and state questions, with tile sizes of its own.
fn check_list(case: &Case, plain: &Outcome, rng: &mut Rng, figures: &mut Figures) {
    let mut list = List::new(case, plain.answer, rng, figures);
    list.check();
    list.compare_with(plain);
    if let Some(model) = list.model {
        notes::note_cut(&mut figures.cuts, case, &model.cut);
    }
}

/// The plain call against the direct sum.
fn check_plain(case: &Case, rng: &mut Rng, figures: &mut Figures) -> Outcome {
    let found = calls::contract(&mut calls::lend(case, rng), case);
    let expected = direct::outcome(case);
    assert_eq!(found.answer, expected.answer, "the answer to {case:?}");
    same_words("D", case, &found.words, &expected.words);
    figures.note_plain(&found);
    found
}
