//! The model's questions.

use super::case::{Case, Tensor};
use super::direct::{address, Values};
use super::groups::{Cut, Groups};
use super::request::{work_needed, Request};
use nezgrak::TileSizes;
use std::collections::{BTreeMap, BTreeSet};

const LIMIT: i128 = 16_777_216;

/// The number of the first question of the plain call that fails, or 0. C is asked where it is named: 1 to 6, 30 and 8.
pub fn first_no(case: &Case) -> u32 {
    let every = |asked: fn(&Tensor) -> bool| case.tensors().into_iter().all(asked);
    if !every(|t| t.letters.len() <= 8) {
        1
    } else if !every(|t| t.letters.len() == t.extents.len() && t.letters.len() == t.strides.len()) {
        2
    } else if !every(|t| t.letters.iter().all(u8::is_ascii_alphabetic)) {
        3
    } else if !every(|t| t.extents.iter().all(|extent| *extent <= 65_536)) {
        4
    } else if !every(within_limits) {
        5
    } else if !extents_agree(case) {
        6
    } else if case.c.as_ref().is_some_and(|c| letters(c) != letters(&case.d)) {
        30
    } else if !product(case).is_some_and(|product| product <= 1_073_741_824) {
        7
    } else if !every(entries_inside) {
        8
    } else if !apart(&case.d) {
        9
    } else {
        0
    }
}

/// That of a tile call: 1 to 12, and 30 after 6.
pub fn first_no_of_tiles(r: &Request) -> u32 {
    tiles_after(first_no(&r.case), r)
}

/// The same where it is known what the first nine, and 30, say.
pub fn tiles_after(first_nine: u32, r: &Request) -> u32 {
    let number = first_ten_after(first_nine, r.sizes);
    if number != 0 {
        number
    } else if (r.work.len() as u128) < work_needed(r.sizes) {
        11
    } else if r.done > Cut::of(&Groups::of(&r.case), r.sizes).total() {
        12
    } else {
        0
    }
}

/// That of a state question: 1 to 10, 12 and 13, and 30 after 6.
pub fn first_no_of_state(r: &Request) -> u32 {
    state_after(first_no(&r.case), r)
}

/// The same where it is known what the first nine, and 30, say.
pub fn state_after(first_nine: u32, r: &Request) -> u32 {
    let number = first_ten_after(first_nine, r.sizes);
    if number != 0 {
        return number;
    }
    let cut = Cut::of(&Groups::of(&r.case), r.sizes);
    if r.done > cut.total() {
        12
    } else if r.index.batch >= cut.batch || r.index.row >= cut.row || r.index.column >= cut.column {
        13
    } else {
        0
    }
}

/// That of questions 1 to 10, and 30, which say whether a contraction is accepted.
pub fn first_ten_after(first_nine: u32, sizes: TileSizes) -> u32 {
    match first_nine {
        0 if !sizes_fit(sizes) => 10,
        number => number,
    }
}

fn sizes_fit(sizes: TileSizes) -> bool {
    (1..=64).contains(&sizes.rows) && (1..=64).contains(&sizes.cols) && (1..=128).contains(&sizes.depth)
}

fn within_limits(t: &Tensor) -> bool {
    let strides = t.strides.iter().all(|&stride| (-LIMIT..=LIMIT).contains(&i128::from(stride)));
    strides && i128::from(t.base) <= LIMIT && t.words.len() as i128 <= LIMIT
}

fn extents_agree(case: &Case) -> bool {
    let extents = labels(&case.tensors());
    case.tensors().iter().all(|t| t.letters.iter().zip(&t.extents).all(|(letter, extent)| extents[letter] == *extent))
}

/// Question 7's product of the extents of all different labels, in which an extent 0 counts as 1. The product of 24
/// extents can have 384 bits; there is none where it leaves 128 bits.
pub fn product(case: &Case) -> Option<u128> {
    let mut extents =
        labels(&case.tensors()).into_values().map(|extent| if extent == 0 { 1 } else { u128::from(extent) });
    extents.try_fold(1, u128::checked_mul)
}

/// The different letters of a tensor.
fn letters(t: &Tensor) -> BTreeSet<u8> {
    t.letters.iter().copied().collect()
}

/// Every different label of these tensors, with an extent that it has in one of them.
pub fn labels(tensors: &[&Tensor]) -> BTreeMap<u8, u32> {
    tensors.iter().flat_map(|t| t.letters.iter().copied().zip(t.extents.iter().copied())).collect()
}

/// A tensor with an extent 0 has no entries. An address is linear in each index, so all entries are inside where those
/// at the corners are.
pub fn entries_inside(t: &Tensor) -> bool {
    if t.is_empty() {
        return true;
    }
    let labels = labels(&[t]);
    (0..1_usize << labels.len()).all(|corner| {
        let mut values: Values = [0; 128];
        for (bit, (&letter, &extent)) in labels.iter().enumerate() {
            values[usize::from(letter)] = if corner >> bit & 1 == 1 { i64::from(extent) - 1 } else { 0 };
        }
        (0..t.words.len() as i64).contains(&address(t, &values))
    })
}

/// Each label's stride size and its extent, the strides of a repeated letter summed.
fn stride_sizes(t: &Tensor) -> BTreeMap<u8, (i128, i128)> {
    let mut sums: BTreeMap<u8, i128> = BTreeMap::new();
    for (letter, stride) in t.letters.iter().zip(&t.strides) {
        *sums.entry(*letter).or_default() += i128::from(*stride);
    }
    let extents = labels(&[t]);
    sums.into_iter().map(|(letter, stride)| (letter, (stride.abs(), i128::from(extents[&letter])))).collect()
}

/// Question 9. A D with an extent 0 passes.
pub fn apart(d: &Tensor) -> bool {
    if d.is_empty() {
        return true;
    }
    let sizes = stride_sizes(d);
    sizes.iter().filter(|(_, (_, extent))| *extent > 1).all(|(letter, (size, _))| {
        let others = sizes.iter().filter(|(other, (its, _))| *other != letter && its <= size);
        *size > others.map(|(_, (its, extent))| (extent - 1) * its).sum::<i128>()
    })
}
