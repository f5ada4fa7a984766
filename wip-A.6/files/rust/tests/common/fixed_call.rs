//! The calls in fixed point under guard, alone and against the model: by their pointers and by the safe calls, which have to
//! agree. The safe ones are handed the contraction with its alpha, its beta and its C.

use super::case::{same_words, Case, Outcome};
use super::ffi::{contract_fixed, run_tiles_fixed};
use super::fixed::outcome;
use super::fixed_panels;
use super::fixed_questions::without_c;
use super::fixed_request::{FixedRan, FixedRequest};
use super::guard::Guarded;
use super::lent::Lent;
use super::panels;
use super::request::{Ran, Request};
use super::tile_call::{ask_lent, same, state_number};

/// What stands where the answers go before a call.
const UNSET_COUNT: u64 = 0x5e17_1e55_c0de_d00d;
const UNSET: u32 = 0x1ea7_be1f;

/// Makes the plain call. Fails where it changed anything that it may only read, or a guard word.
pub fn run_plain(case: &Case, shift: u32) -> Outcome {
    let (flat, safe) = (run_plain_flat(&mut Lent::of(case), case, shift), run_plain_safe(case, shift));
    assert!(flat == safe, "the flat and the safe call differ: {case:?}, shift {shift}");
    flat
}

/// The call by its pointers and lengths, of what is lent.
pub fn run_plain_flat(lent: &mut Lent, case: &Case, shift: u32) -> Outcome {
    // SAFETY: each layout has 28 words, and each other pointer and length are those of one slice; D's words, which are
    // written, are shared by no other.
    let answer = unsafe {
        contract_fixed(
            lent.a.operand(),
            lent.b.operand(),
            lent.d.layout(),
            lent.d.words_mut().as_mut_ptr(),
            case.d.words.len(),
            shift,
        )
    };
    lent.check(case);
    Outcome { answer, words: lent.d.words().to_vec() }
}

fn run_plain_safe(case: &Case, shift: u32) -> Outcome {
    let mut lent = Lent::of(case);
    let (contraction, d) = lent.contraction(case);
    let answer = contraction.contract_fixed(d, shift).map_or_else(|refusal| refusal.number(), |()| 0);
    lent.check(case);
    Outcome { answer, words: lent.d.words().to_vec() }
}

/// Makes the plain call, compares everything with the model, and gives what it found.
pub fn check_plain(case: &Case, shift: u32) -> Outcome {
    let (found, expected) = (run_plain(case, shift), outcome(case, shift));
    assert_eq!(found.answer, expected.answer, "the answer to {case:?}, shift {shift}");
    same_words("D", case, &found.words, &expected.words);
    found
}

/// Makes a tile call. Fails where it changed anything that it may only read, or a guard word.
pub fn run(r: &FixedRequest) -> FixedRan {
    let (flat, safe) = (run_flat(r), run_safe(r));
    assert!(flat == safe, "the flat and the safe call differ: {r:?}");
    flat
}

fn run_flat(r: &FixedRequest) -> FixedRan {
    let (work, sums) = (Guarded::around(&r.request.work), Guarded::around(&r.sums));
    run_lent(&mut Lent::of(&r.request.case), r, work, sums, UNSET_COUNT, UNSET)
}

/// The call by its pointers and lengths, of what is lent, with these numbers where the answers go.
pub fn run_lent(
    lent: &mut Lent,
    FixedRequest { request: r, shift, sums: given }: &FixedRequest,
    mut work: Guarded<u32>,
    mut sums: Guarded<i64>,
    unset_count: u64,
    unset: u32,
) -> FixedRan {
    let (mut done, mut complete) = (Guarded::around(&[unset_count]), Guarded::around(&[unset]));
    // SAFETY: each layout has 28 words, and each other pointer and length are those of one slice; no two of the slices
    // that are written share a word.
    let answer = unsafe {
        run_tiles_fixed(
            lent.a.operand(),
            lent.b.operand(),
            lent.d.layout(),
            lent.d.words_mut().as_mut_ptr(),
            r.case.d.words.len(),
            *shift,
            r.sizes.rows,
            r.sizes.cols,
            r.sizes.depth,
            work.part_mut().as_mut_ptr(),
            r.work.len(),
            sums.part_mut().as_mut_ptr(),
            given.len(),
            r.done,
            r.budget,
            done.part_mut().as_mut_ptr(),
            complete.part_mut().as_mut_ptr(),
        )
    };
    lent.check(&r.case);
    assert!(work.intact() && done.intact() && complete.intact(), "a word beside work or an answer was changed: {r:?}");
    assert!(sums.intact(), "a number beside the sums was changed: {r:?}");
    let (words, work) = (lent.d.words().to_vec(), work.part().to_vec());
    let ran = Ran { answer, done: done.part()[0], complete: complete.part()[0], words, work };
    FixedRan { ran, sums: sums.part().to_vec() }
}

fn run_safe(FixedRequest { request: r, shift, sums }: &FixedRequest) -> FixedRan {
    let mut lent = Lent::of(&r.case);
    let (mut work, mut sums) = (Guarded::around(&r.work), Guarded::around(sums));
    let (contraction, d) = lent.contraction(&r.case);
    let result = contraction.run_tiles_fixed(d, *shift, r.sizes, work.part_mut(), sums.part_mut(), r.done, r.budget);
    lent.check(&r.case);
    assert!(work.intact() && sums.intact(), "a word beside work or the sums was changed: {r:?}");
    let (answer, done, complete) = match result {
        Ok(progress) => (0, progress.done, u32::from(progress.complete)),
        Err(refusal) => (refusal.number(), r.done, 0),
    };
    let ran = Ran { answer, done, complete, words: lent.d.words().to_vec(), work: work.part().to_vec() };
    FixedRan { ran, sums: sums.part().to_vec() }
}

/// Fails where an answer, a word or a sum is not as expected.
pub fn same_fixed(r: &FixedRequest, found: &FixedRan, expected: &FixedRan) {
    same(&r.request, &found.ran, &expected.ran);
    assert_eq!(found.sums.len(), expected.sums.len(), "the sums after {r:?}");
    if let Some(place) = (0..found.sums.len()).find(|&place| found.sums[place] != expected.sums[place]) {
        panic!("sum {place} is {} and not {} after {r:?}", found.sums[place], expected.sums[place]);
    }
}

/// Makes a tile call, compares everything with the model, and gives what it found.
pub fn check_run(r: &FixedRequest) -> FixedRan {
    let found = run(r);
    same_fixed(r, &found, &fixed_panels::outcome(r));
    found
}

/// Asks for a state in fixed point: old 0, part 1 or final 2, or the number that refused. Fails where a word was changed.
pub fn ask(r: &Request) -> Result<u32, u32> {
    let bare = Request { case: without_c(&r.case), ..r.clone() };
    let (flat, safe) = (ask_lent(&Lent::of(&bare.case), &bare, UNSET), ask_safe(r));
    assert_eq!(flat, safe, "the flat and the safe question differ: {r:?}");
    flat
}

fn ask_safe(r: &Request) -> Result<u32, u32> {
    let mut lent = Lent::of(&r.case);
    let (contraction, d) = lent.contraction(&r.case);
    let result = contraction.state_fixed(d, r.sizes, r.done, r.index);
    lent.check(&r.case);
    same_words("D", r, lent.d.words(), &r.case.d.words);
    state_number(result)
}

/// Asks for a state, compares with the model, and gives what it found.
pub fn check_ask(r: &Request) -> Result<u32, u32> {
    let found = ask(r);
    let bare = Request { case: without_c(&r.case), ..r.clone() };
    assert_eq!(found, panels::state(&bare), "the state by {r:?}");
    found
}
