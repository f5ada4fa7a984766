//! The model's sum: for each index of D's labels an odometer over every label that D lacks, and exact numbers until the
//! last step. A sum over no values is 0. Where C is named, its entry stands for D's old word.

use super::case::{Case, Outcome, Tensor};
use super::questions::{first_no, labels};
use std::collections::BTreeMap;

/// The value of each label, by its letter.
pub type Values = [i64; 128];

/// What the call has to answer and to leave.
pub fn outcome(case: &Case) -> Outcome {
    let answer = first_no(case);
    let words = if answer == 0 { contracted(case) } else { case.d.words.clone() };
    Outcome { answer, words }
}

/// The place of an entry. A repeated letter counts once for each stride.
pub fn address(t: &Tensor, values: &Values) -> i64 {
    let steps =
        t.letters.iter().zip(&t.strides).map(|(letter, stride)| values[usize::from(*letter)] * i64::from(*stride));
    i64::from(t.base) + steps.sum::<i64>()
}

pub fn entry(t: &Tensor, values: &Values) -> u128 {
    u128::from(t.words[address(t, values) as usize])
}

fn contracted(case: &Case) -> Vec<u32> {
    let (of_d, mut lacking) = (labels(&[&case.d]), labels(&case.tensors()));
    lacking.retain(|letter, _| !of_d.contains_key(letter));
    let start = case.c.as_ref().unwrap_or(&case.d);
    let mut words = case.d.words.clone();
    for_all_values(&of_d, [0; 128], |output| {
        let mut sum = 0;
        for_all_values(&lacking, *output, |values| sum += entry(&case.a, values) * entry(&case.b, values));
        let whole = u128::from(case.alpha) * sum + u128::from(case.beta) * entry(start, output);
        words[address(&case.d, output) as usize] = (whole % (1 << 32)) as u32;
    });
    words
}

/// Visits all values of these labels, the others staying as they are. There are none where an extent is 0.
fn for_all_values(extents: &BTreeMap<u8, u32>, mut values: Values, mut visit: impl FnMut(&Values)) {
    if extents.values().any(|extent| *extent == 0) {
        return;
    }
    loop {
        visit(&values);
        let turned = extents.iter().find(|(&letter, &extent)| {
            let value = &mut values[usize::from(letter)];
            *value = (*value + 1) % i64::from(extent);
            *value != 0
        });
        if turned.is_none() {
            return;
        }
    }
}
