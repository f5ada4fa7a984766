//! Tile calls and state questions under guard: each by its words and by the safe call, which have to agree.

use super::case::same_words;
use super::ffi::{run_tiles, state};
use super::guard::Guarded;
use super::lent::{Lent, LentTensor};
use super::panels;
use super::request::{Ran, Request};
use nezgrak::State;

/// What stands where the answers go before a call.
const UNSET_COUNT: u64 = 0x5e17_1e55_c0de_d00d;
const UNSET: u32 = 0x1ea7_be1f;

/// Makes a tile call. Fails where it changed anything that it may only read, or a guard word.
pub fn run(r: &Request) -> Ran {
    let (flat, safe) = (run_flat(r), run_safe(r));
    assert!(flat == safe, "the flat and the safe call differ: {r:?}");
    flat
}

/// The call by its pointers and lengths.
fn run_flat(r: &Request) -> Ran {
    run_lent(&mut Lent::of(&r.case), r, Guarded::around(&r.work), UNSET_COUNT, UNSET)
}

/// The same of what is lent, with these numbers where the answers go.
pub fn run_lent(lent: &mut Lent, r: &Request, mut work: Guarded<u32>, unset_count: u64, unset: u32) -> Ran {
    let (mut done, mut complete) = (Guarded::around(&[unset_count]), Guarded::around(&[unset]));
    // SAFETY: each layout has 28 words, and each other pointer and length are those of one slice; no two of the slices
    // that are written share a word.
    let answer = unsafe {
        run_tiles(
            lent.a.operand(),
            lent.b.operand(),
            lent.c.as_ref().map(LentTensor::operand),
            lent.d.layout(),
            lent.d.words_mut().as_mut_ptr(),
            r.case.d.words.len(),
            r.case.alpha,
            r.case.beta,
            r.sizes.rows,
            r.sizes.cols,
            r.sizes.depth,
            work.part_mut().as_mut_ptr(),
            r.work.len(),
            r.done,
            r.budget,
            done.part_mut().as_mut_ptr(),
            complete.part_mut().as_mut_ptr(),
        )
    };
    lent.check(&r.case);
    assert!(work.intact() && done.intact() && complete.intact(), "a word beside work or an answer was changed: {r:?}");
    let (words, work) = (lent.d.words().to_vec(), work.part().to_vec());
    Ran { answer, done: done.part()[0], complete: complete.part()[0], words, work }
}

fn run_safe(r: &Request) -> Ran {
    let mut lent = Lent::of(&r.case);
    let mut work = Guarded::around(&r.work);
    let (contraction, d) = lent.contraction(&r.case);
    let result = contraction.run_tiles(d, r.sizes, work.part_mut(), r.done, r.budget);
    lent.check(&r.case);
    assert!(work.intact(), "a word beside work was changed: {r:?}");
    let (answer, done, complete) = match result {
        Ok(progress) => (0, progress.done, u32::from(progress.complete)),
        Err(refusal) => (refusal.number(), r.done, 0),
    };
    Ran { answer, done, complete, words: lent.d.words().to_vec(), work: work.part().to_vec() }
}

/// Asks for a state: old 0, part 1 or final 2, or the number that refused. Fails where a word was changed.
pub fn ask(r: &Request) -> Result<u32, u32> {
    let (flat, safe) = (ask_flat(r), ask_safe(r));
    assert_eq!(flat, safe, "the flat and the safe question differ: {r:?}");
    flat
}

fn ask_flat(r: &Request) -> Result<u32, u32> {
    ask_lent(&Lent::of(&r.case), r, UNSET)
}

/// The same of what is lent, with this number where the state goes.
pub fn ask_lent(lent: &Lent, r: &Request, unset: u32) -> Result<u32, u32> {
    let mut answered = Guarded::around(&[unset]);
    // SAFETY: each layout has 28 words, and each other pointer and length are those of one slice; the state, which is
    // written, shares no word with others.
    let answer = unsafe {
        state(
            lent.a.operand(),
            lent.b.operand(),
            lent.c.as_ref().map(LentTensor::operand),
            lent.d.layout(),
            lent.d.words().as_ptr(),
            lent.d.words().len(),
            r.case.alpha,
            r.case.beta,
            r.sizes.rows,
            r.sizes.cols,
            r.sizes.depth,
            r.done,
            r.index.batch,
            r.index.row,
            r.index.column,
            answered.part_mut().as_mut_ptr(),
        )
    };
    lent.check(&r.case);
    same_words("D", r, lent.d.words(), &r.case.d.words);
    assert!(answered.intact(), "a word beside the state was changed: {r:?}");
    assert!(answer == 0 || answered.part() == [unset], "a refusal set the state: {r:?}");
    match answer {
        0 => Ok(answered.part()[0]),
        number => Err(number),
    }
}

fn ask_safe(r: &Request) -> Result<u32, u32> {
    let mut lent = Lent::of(&r.case);
    let (contraction, d) = lent.contraction(&r.case);
    let result = contraction.state(d, r.sizes, r.done, r.index);
    lent.check(&r.case);
    same_words("D", r, lent.d.words(), &r.case.d.words);
    match result {
        Ok(State::Old) => Ok(0),
        Ok(State::Part) => Ok(1),
        Ok(State::Final) => Ok(2),
        Err(refusal) => Err(refusal.number()),
    }
}

/// Fails where an answer or a word is not as expected.
pub fn same(r: &Request, found: &Ran, expected: &Ran) {
    let answers = |ran: &Ran| (ran.answer, ran.done, ran.complete);
    assert_eq!(answers(found), answers(expected), "answer, count and whether complete, to {r:?}");
    same_words("D", r, &found.words, &expected.words);
    same_words("work", r, &found.work, &expected.work);
}

/// Makes a tile call, compares everything with the model, and gives what it found.
pub fn check_run(r: &Request) -> Ran {
    let found = run(r);
    same(r, &found, &panels::outcome(r));
    found
}

/// Asks for a state, compares with the model, and gives what it found.
pub fn check_ask(r: &Request) -> Result<u32, u32> {
    let found = ask(r);
    assert_eq!(found, panels::state(r), "the state by {r:?}");
    found
}
