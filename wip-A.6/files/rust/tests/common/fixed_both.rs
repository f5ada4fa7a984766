//! One contraction in fixed point by both engines: the plain call and tile calls.

use super::case::{same_words, Case};
use super::cutting::SIZES;
use super::fixed_call::{check_ask, check_plain, check_run, same_fixed};
use super::fixed_list::run_in;
use super::fixed_request::{FixedRan, FixedRequest};
use super::request::Request;
use nezgrak::OutputIndex;

/// Both have to leave exactly these words, the tile calls whatever the sizes and budgets.
pub fn gives(case: &Case, shift: u32, words: &[u32]) {
    let found = check_plain(case, shift);
    assert_eq!(found.answer, 0, "the answer to {case:?}, shift {shift}");
    same_words("D", case, &found.words, words);
    for sizes in SIZES {
        for calls in [1, 3, u64::MAX] {
            same_words("D", case, &run_in(case, shift, sizes, calls).0, words);
        }
    }
}

/// The same for words read as signed.
pub fn gives_signed(case: &Case, shift: u32, words: &[i32]) {
    gives(case, shift, &words.iter().map(|word| *word as u32).collect::<Vec<_>>());
}

/// A request of one tile, with as many sums as D has words.
pub fn request_of(case: &Case, shift: u32) -> FixedRequest {
    let (case, sums) = (case.clone(), (1..).take(case.d.words.len()).collect());
    let (work, index) = (vec![7; 10], OutputIndex::new(0, 0, 0));
    FixedRequest { request: Request { case, sizes: SIZES[1], done: 0, budget: 1, work, index }, shift, sums }
}

/// Both have to refuse by this number, which is one of 1 to 9, 34 or 35; a state question does so for the first nine.
pub fn refuses(case: &Case, shift: u32, number: u32) {
    let found = check_plain(case, shift);
    assert_eq!(found.answer, number, "the answer to {case:?}, shift {shift}");
    let r = request_of(case, shift);
    same_fixed(&r, &check_run(&r), &FixedRan::refused(&r, number));
    let first_nine = |number: &u32| *number <= 9;
    let of_state = check_ask(&r.request).err().filter(first_nine);
    assert_eq!(of_state, Some(number).filter(first_nine), "the state by {r:?}");
}
