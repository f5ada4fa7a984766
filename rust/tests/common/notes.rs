//! What a random contraction has, noted so that a test shows what it tried.

use super::case::{Case, Tensor};
use super::groups::in_order;
use super::questions::labels;
use super::seen::Seen;

/// The tensors that a label can have.
pub const SORTS: [&str; 7] = ["A", "B", "AB", "D", "AD", "BD", "ABD"];

/// The tensors that a label has. C has those of D.
pub fn sort_of(case: &Case, label: u8) -> String {
    let having = case.named().into_iter().filter(|(name, t)| *name != "C" && t.letters.contains(&label));
    having.map(|(name, _)| name).collect()
}

pub fn note_factors(seen: &mut Seen, case: &Case) {
    for (name, factor) in [("alpha", case.alpha), ("beta", case.beta)] {
        for value in [0, 1, u32::MAX] {
            seen.note(&format!("{name} {value}"), factor == value);
        }
        seen.note(&format!("{name} of another value"), (2..u32::MAX).contains(&factor));
    }
}

/// Which tensors have a label, ranks, repeats, extents of 1 and the two cases of a letter.
pub fn note_labels(seen: &mut Seen, case: &Case) {
    let all = labels(&case.tensors());
    for sort in SORTS {
        let mut large = all.iter().filter(|(_, extent)| **extent > 1);
        seen.note(&format!("label in {sort} only"), large.any(|(letter, _)| sort_of(case, *letter) == sort));
    }
    for (name, t) in case.named() {
        seen.note(&format!("rank 0 of {name}"), t.letters.is_empty());
        seen.note(&format!("rank 8 of {name}"), t.letters.len() == 8);
        seen.note(&format!("repeated letter in {name}"), labels(&[t]).len() < t.letters.len());
        seen.note(&format!("extent 1 in {name}"), t.extents.contains(&1));
    }
    let both = all.keys().any(|letter| letter.is_ascii_lowercase() && all.contains_key(&letter.to_ascii_uppercase()));
    seen.note("letter in both cases", both);
}

/// Negative strides, strides of 0, large strides and words, gaps, and words that are read twice.
pub fn note_strides(seen: &mut Seen, case: &Case) {
    for (name, t) in case.named() {
        let of_large = || t.strides.iter().zip(&t.extents).filter(|(_, extent)| **extent > 1).map(|(stride, _)| stride);
        seen.note(&format!("negative stride in {name}"), of_large().any(|stride| *stride < 0));
        seen.note(&format!("large stride in {name}"), t.strides.iter().any(|stride| stride.abs() > 1 << 20));
        let points: usize = labels(&[t]).values().map(|extent| *extent as usize).product();
        seen.note(&format!("unaddressed word in {name}"), points < t.words.len());
        seen.note(&format!("large word in {name}"), t.words.iter().any(|word| *word > 1 << 31));
        if name == "D" {
            continue;
        }
        seen.note(&format!("stride 0 in {name}"), of_large().any(|stride| *stride == 0));
        seen.note(&format!("shared word in {name}"), points > t.words.len());
    }
    seen.note("labels that fold", labels_fold(case));
}

/// How C stands to D: the order of its letters, where its entries are, and whether it keeps labels from folding.
pub fn note_c(seen: &mut Seen, case: &Case) {
    let Some(c) = &case.c else { return };
    let order = |t: &Tensor| in_order(&[t]).into_iter().filter(|(_, extent)| *extent != 1).collect::<Vec<_>>();
    seen.note("C's letters in D's order", order(c).len() > 1 && order(c) == order(&case.d));
    seen.note("C's letters in another order", order(c) != order(&case.d));
    let strides = |t: &Tensor| labels(&[t]).into_keys().map(|letter| t.stride(letter)).collect::<Vec<_>>();
    seen.note("C's entries at D's places", c.base == case.d.base && strides(c) == strides(&case.d));
    let without_c = Case { c: None, ..case.clone() };
    seen.note("labels that fold but for C", labels_fold(&without_c) && !labels_fold(case));
}

/// Does some label, in every tensor, go on where another ends? A tensor without a label has stride 0 there.
fn labels_fold(case: &Case) -> bool {
    let all: Vec<_> = labels(&case.tensors()).into_iter().filter(|(_, extent)| *extent > 1).collect();
    let goes_on = |(x, extent): (u8, u32), y: u8| {
        x != y && case.tensors().iter().all(|t| t.stride(y) == i64::from(extent) * t.stride(x))
    };
    all.iter().any(|x| all.iter().any(|y| goes_on(*x, y.0)))
}
