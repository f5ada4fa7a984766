//! The model of fixed point: exact sums of signed words, divided, rounded and added to the old word as whole numbers of 128
//! bits, and held at the ends once, at the last step. `fixed_panels` adds that of the tile calls.

use super::case::{Case, Outcome, Tensor};
use super::direct::{address, for_all_values, Values};
use super::fixed_questions::first_no_fixed;
use super::questions::labels;
use std::cmp::Ordering;

/// A word read as signed.
pub fn signed(word: u32) -> i128 {
    i128::from(word as i32)
}

/// An entry read as signed.
pub fn signed_entry(t: &Tensor, values: &Values) -> i128 {
    signed(t.words[address(t, values) as usize])
}

/// The sum divided by 2^shift and rounded to nearest: of the two whole numbers around the quotient the nearer one, on a tie
/// the even one.
pub fn rounded(sum: i128, shift: u32) -> i128 {
    let unit = 1_i128 << shift;
    let below = sum.div_euclid(unit);
    let above = below + 1;
    match (sum - below * unit).cmp(&(above * unit - sum)) {
        Ordering::Less => below,
        Ordering::Greater => above,
        Ordering::Equal => [below, above].into_iter().find(|number| number % 2 == 0).expect("one of two neighbours"),
    }
}

/// Held at the ends of the signed 32-bit range.
fn held(whole: i128) -> u32 {
    whole.clamp(i128::from(i32::MIN), i128::from(i32::MAX)) as u32
}

/// What a word becomes when its sum is whole.
pub fn word_of(old: u32, sum: i128, shift: u32) -> u32 {
    held(signed(old) + rounded(sum, shift))
}

/// What the plain call has to answer and to leave.
pub fn outcome(case: &Case, shift: u32) -> Outcome {
    let answer = first_no_fixed(case, shift);
    let words = if answer == 0 { contracted(case, shift) } else { case.d.words.clone() };
    Outcome { answer, words }
}

fn contracted(case: &Case, shift: u32) -> Vec<u32> {
    let (of_d, mut lacking) = (labels(&[&case.d]), labels(&[&case.a, &case.b]));
    lacking.retain(|letter, _| !of_d.contains_key(letter));
    let mut words = case.d.words.clone();
    for_all_values(&of_d, [0; 128], |output| {
        let mut sum = 0;
        for_all_values(&lacking, *output, |values| {
            sum += signed_entry(&case.a, values) * signed_entry(&case.b, values)
        });
        let place = address(&case.d, output) as usize;
        words[place] = word_of(case.d.words[place], sum, shift);
    });
    words
}
