//! What a random contraction has that is empty: labels of extent 0, tensors without entries, groups of size 0.

use super::case::{Case, Tensor};
use super::groups::{Group, Groups};
use super::notes::{sort_of, SORTS};
use super::questions::{apart, entries_inside, labels};
use super::seen::Seen;

/// Which tensors have a label of extent 0, how many such labels there are, and which groups have size 0.
pub fn note_empty(seen: &mut Seen, case: &Case) {
    let mut empty = labels(&case.tensors());
    empty.retain(|_, extent| *extent == 0);
    for sort in SORTS {
        let there = empty.keys().any(|letter| sort_of(case, *letter) == sort);
        seen.note(&format!("extent 0 in {sort} only"), there);
    }
    seen.note("several labels of extent 0", empty.len() > 1);
    seen.note("several labels of extent 0 in one tensor", case.tensors().iter().any(|t| empty_labels(t) > 1));
    let Groups { batch, row, column, depth } = Groups::of(case);
    for (name, group) in [("batch", &batch), ("row", &row), ("column", &column), ("depth", &depth)] {
        seen.note(&format!("{name} size 0"), group.size() == 0);
        seen.note(&format!("{name} size 0 with other extents"), group.size() == 0 && has_others(group));
    }
    let has_outputs = !case.d.is_empty();
    seen.note("depth size 0 for several outputs", has_outputs && depth.size() == 0 && outputs(case) > 1);
    seen.note("depth size 0 and no output", !has_outputs && depth.size() == 0);
    seen.note("no output and terms in the depth", !has_outputs && depth.size() > 1);
    note_tensors(seen, case);
}

/// How many labels of a tensor have extent 0.
fn empty_labels(t: &Tensor) -> usize {
    labels(&[t]).values().filter(|extent| **extent == 0).count()
}

fn outputs(case: &Case) -> u64 {
    labels(&[&case.d]).values().map(|extent| u64::from(*extent)).product()
}

fn has_others(group: &Group) -> bool {
    group.0.iter().any(|(_, extent)| *extent > 1)
}

/// Tensors without entries, also ones that a question would refuse if their extents 0 were 1, and those beside them
/// that have entries.
fn note_tensors(seen: &mut Seen, case: &Case) {
    let some_empty = case.tensors().iter().any(|t| t.is_empty());
    for (name, t) in case.named() {
        let empty = t.is_empty();
        let past_end = t.base as usize >= t.words.len();
        seen.note(&format!("no entries in {name}"), empty);
        seen.note(&format!("no entries and words in {name}"), empty && !t.words.is_empty());
        seen.note(&format!("no entries and no words in {name}"), empty && t.words.is_empty());
        seen.note(&format!("no entries and a base past the words in {name}"), empty && past_end && !t.words.is_empty());
        seen.note(&format!("no entries, refused 8 at extent 1 in {name}"), empty && !entries_inside(&at_extent_1(t)));
        seen.note(&format!("entries beside a tensor without in {name}"), !empty && some_empty);
    }
    let overlaps = case.d.is_empty() && !apart(&at_extent_1(&case.d));
    seen.note("no entries, refused 9 at extent 1 in D", overlaps);
}

/// The tensor with 1 for each extent 0.
fn at_extent_1(t: &Tensor) -> Tensor {
    let extents = t.extents.iter().map(|extent| (*extent).max(1)).collect();
    Tensor { extents, ..t.clone() }
}
