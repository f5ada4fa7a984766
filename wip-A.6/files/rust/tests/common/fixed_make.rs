//! Random contractions in fixed point: accepted ones by construction, and edits that spoil a request.

use super::case::{Case, Tensor};
use super::fixed_questions::addressed;
use super::fixed_request::FixedRequest;
use super::make::{accepted_of_both_forms, Kind};
use super::rng::Rng;

/// Words that are no numbers of 16 bits, and of which some bits alone would be one.
pub const OUTSIDE: [i32; 12] =
    [-32_769, 32_768, -32_770, 65_535, 65_536, -65_536, 98_304, 1 << 17, 1 << 24, -(1 << 30), i32::MIN, i32::MAX];

/// A contraction that passes every question; its C, where it names one, means nothing and is spoilt at times.
pub fn accepted_fixed(rng: &mut Rng, kind: &Kind) -> Case {
    let mut case = accepted_of_both_forms(rng, kind);
    fit(rng, &mut case.a);
    fit(rng, &mut case.b);
    let style = rng.below(3);
    case.d.words.iter_mut().for_each(|word| *word = old_word(rng, style));
    if let Some(c) = case.c.as_mut().filter(|_| rng.once_in(2)) {
        c.letters.push(b'?');
        c.words.clear();
    }
    case
}

/// Numbers from -32,768 to 32,767 at the entries, and others at all other places.
fn fit(rng: &mut Rng, t: &mut Tensor) {
    let (style, is_entry) = (rng.below(4), addressed(t));
    for (word, is_entry) in t.words.iter_mut().zip(is_entry) {
        *word = if is_entry { number(rng, style) } else { rng.pick(&OUTSIDE) } as u32;
    }
}

fn number(rng: &mut Rng, style: usize) -> i32 {
    match style {
        0 => rng.between(-9, 9),
        1 => rng.pick(&[-32_768, -32_767, -1, 0, 1, 32_766, 32_767]),
        2 => rng.pick(&[-32_768, 32_767]),
        _ => rng.between(-32_768, 32_767),
    }
}

fn old_word(rng: &mut Rng, style: usize) -> u32 {
    match style {
        0 => rng.between(-20, 20) as u32,
        1 => (i32::MAX as u32).wrapping_add(rng.between(-9, 10) as u32),
        _ => rng.word(),
    }
}

/// A shift that 34 accepts, small or any.
pub fn shift(rng: &mut Rng) -> u32 {
    let any = rng.below(16) as u32;
    rng.pick(&[0, 1, 2, any, any, any, 15])
}

/// Sums of any 64-bit numbers, at times at the ends, a few more than are needed once in four.
pub fn sums(rng: &mut Rng, words: usize) -> Vec<i64> {
    let more = rng.pick(&[0, 0, 0, 5]);
    let (style, count) = (rng.below(3), words + more);
    let mut sum = || match style {
        0 => rng.between(-100, 100).into(),
        1 => rng.pick(&[i64::MIN, i64::MIN + 1, i64::MAX - 1, i64::MAX]),
        _ => rng.next() as i64,
    };
    (0..count).map(|_| sum()).collect()
}

/// One edit that is meant for 33, 34 or 35: fewer sums than words, a shift or a depth too large, or a word outside at an
/// entry of A or B. An edit of a word does nothing where there is no entry.
pub fn spoil_fixed(rng: &mut Rng, r: &mut FixedRequest) {
    let words = r.request.case.d.words.len();
    match rng.below(6) {
        0 => r.sums.truncate(rng.pick(&[words.saturating_sub(1), words / 2, 0])),
        1 => r.shift = rng.pick(&[16, 17, 31, 32, 1 << 31, u32::MAX]),
        2 => deepen(rng, &mut r.request.case),
        _ => put_outside(rng, &mut r.request.case),
    }
}

/// Depth labels whose product alone is over 65,536, in one of A and B or shared between both.
fn deepen(rng: &mut Rng, case: &mut Case) {
    let which = rng.pick(&[[0, 0], [1, 1], [0, 1]]);
    case.tensor_mut(which[0]).push(b'y', 256, 0);
    case.tensor_mut(which[1]).push(b'z', 257, 0);
}

fn put_outside(rng: &mut Rng, case: &mut Case) {
    let which = rng.below(2);
    let t = case.tensor_mut(which);
    if t.words.is_empty() || t.letters.len() != t.strides.len() || t.letters.len() != t.extents.len() {
        return;
    }
    let place = rng.below(t.words.len());
    t.words[place] = rng.pick(&OUTSIDE) as u32;
}

/// Keeps the low 16 bits of each word of A and B, read as signed.
pub fn cut_to_16_bits(case: &mut Case) {
    let words = case.a.words.iter_mut().chain(&mut case.b.words);
    words.for_each(|word| *word = i32::from(*word as i16) as u32);
}
