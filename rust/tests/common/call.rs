//! The plain call under guard, alone and against the model: by its words and by the safe call, which have to agree.

use super::case::{same_words, Case, Outcome};
use super::direct;
use super::ffi::contract;
use super::lent::{Lent, LentTensor};

/// Calls the engine. Fails where it changed anything that it may only read, or a guard word.
pub fn run(case: &Case) -> Outcome {
    let (flat, safe) = (run_flat(&mut Lent::of(case), case), run_safe(case));
    assert!(flat == safe, "the flat and the safe call differ: {case:?}");
    flat
}

/// The call by its pointers and lengths, of what is lent.
pub fn run_flat(lent: &mut Lent, case: &Case) -> Outcome {
    // SAFETY: each layout has 28 words, and each other pointer and length are those of one slice; no two of the slices
    // that are written share a word.
    let answer = unsafe {
        contract(
            lent.a.operand(),
            lent.b.operand(),
            lent.c.as_ref().map(LentTensor::operand),
            lent.d.layout(),
            lent.d.words_mut().as_mut_ptr(),
            case.d.words.len(),
            case.alpha,
            case.beta,
        )
    };
    lent.check(case);
    Outcome { answer, words: lent.d.words().to_vec() }
}

fn run_safe(case: &Case) -> Outcome {
    let mut lent = Lent::of(case);
    let (contraction, d) = lent.contraction(case);
    let answer = contraction.contract(d).map_or_else(|refusal| refusal.number(), |()| 0);
    lent.check(case);
    Outcome { answer, words: lent.d.words().to_vec() }
}

/// Calls the engine, compares the answer and every word of D with the model's, and gives what it found.
pub fn check(case: &Case) -> Outcome {
    let (found, expected) = (run(case), direct::outcome(case));
    assert_eq!(found.answer, expected.answer, "the answer to {case:?}");
    same_words("D", case, &found.words, &expected.words);
    found
}

/// The engine, and the model, have to accept and to leave exactly these words in D.
pub fn gives(case: &Case, words: &[u32]) {
    let found = check(case);
    assert_eq!(found.answer, 0, "the answer to {case:?}");
    same_words("D", case, &found.words, words);
}

/// The engine, and the model, have to refuse by this number and to change no word.
pub fn refuses(case: &Case, number: u32) {
    let found = check(case);
    assert_eq!(found.answer, number, "the answer to {case:?}");
    same_words("D", case, &found.words, &case.d.words);
}
