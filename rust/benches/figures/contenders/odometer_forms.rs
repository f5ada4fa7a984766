//! Slower forms of the odometer, which step an index vector over all labels for each term. The labels that D lacks run
//! fastest.

use super::odometer::{add_term, moved, scale, step, Label, Odometer};
use crate::contraction::Contraction;

/// The addresses of each term formed anew from its index.
pub fn anew(odometer: &Odometer, c: &Contraction, d: &mut [u32]) {
    scale(odometer, c, d);
    let labels = depth_first(odometer);
    let mut index = vec![0; labels.len()];
    loop {
        let at = labels.iter().zip(&index).fold(odometer.base, |at, (label, value)| moved(at, label.strides, *value));
        add_term(c, d, at);
        if !advance(&labels, &mut index) {
            return;
        }
    }
}

/// The addresses carried along, and each term added to its word of D.
pub fn carried(odometer: &Odometer, c: &Contraction, d: &mut [u32]) {
    scale(odometer, c, d);
    let labels = depth_first(odometer);
    let (mut index, mut at) = (vec![0; labels.len()], odometer.base);
    loop {
        add_term(c, d, at);
        if step(&labels, &mut index, &mut at) == labels.len() {
            return;
        }
    }
}

/// The same, with the sum of a word held until a carry leaves the labels that D lacks.
pub fn held(odometer: &Odometer, c: &Contraction, d: &mut [u32]) {
    let labels = depth_first(odometer);
    let depth_count = labels.iter().filter(|label| !label.is_in_d()).count();
    let (mut index, mut at, mut sum) = (vec![0; labels.len()], odometer.base, 0u32);
    loop {
        sum = sum.wrapping_add(c.a.words[at[0]].wrapping_mul(c.b.words[at[1]]));
        let word = at[2];
        let stepped = step(&labels, &mut index, &mut at);
        if stepped >= depth_count {
            d[word] = c.beta.wrapping_mul(d[word]).wrapping_add(c.alpha.wrapping_mul(sum));
            sum = 0;
        }
        if stepped == labels.len() {
            return;
        }
    }
}

/// The labels that D lacks, then D's by rising stride in D.
fn depth_first(odometer: &Odometer) -> Vec<Label> {
    let mut labels = odometer.labels.clone();
    labels.sort_by_key(Label::size_in_d);
    labels
}

/// The next index alone, the first label fastest; false after the last.
fn advance(labels: &[Label], index: &mut [usize]) -> bool {
    for (label, value) in labels.iter().zip(index) {
        *value += 1;
        if *value < label.extent {
            return true;
        }
        *value = 0;
    }
    false
}
