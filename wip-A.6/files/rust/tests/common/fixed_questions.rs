//! The model's questions in fixed point: those of a contraction without C, then 33 to 35.

use super::case::{Case, Tensor};
use super::fixed_request::FixedRequest;
use super::groups::Groups;
use super::questions::{first_no, labels, tiles_after};

/// The contraction that fixed point is about: without C, whatever it names.
pub fn without_c(case: &Case) -> Case {
    Case { c: None, ..case.clone() }
}

/// The number of the first question of the plain call that fails, or 0: 1 to 9, 34 and 35.
pub fn first_no_fixed(case: &Case, shift: u32) -> u32 {
    match first_no(&without_c(case)) {
        0 => last_two(case, shift),
        number => number,
    }
}

/// That of a tile call: 1 to 12 and 33 to 35.
pub fn first_no_of_fixed_tiles(r: &FixedRequest) -> u32 {
    fixed_tiles_after(first_no(&without_c(&r.request.case)), r)
}

/// The same where it is known what the first nine say.
pub fn fixed_tiles_after(first_nine: u32, r: &FixedRequest) -> u32 {
    match tiles_after(first_nine, &r.request) {
        0 if r.sums.len() < r.request.case.d.words.len() => 33,
        0 => last_two(&r.request.case, r.shift),
        number => number,
    }
}

/// 34 and 35, of a contraction that passes 1 to 9.
fn last_two(case: &Case, shift: u32) -> u32 {
    if Groups::of(case).depth.size() > 65_536 || shift > 15 {
        34
    } else if ![&case.a, &case.b].into_iter().all(words_fit) {
        35
    } else {
        0
    }
}

fn words_fit(t: &Tensor) -> bool {
    let fits = |word: u32| (-32_768..=32_767).contains(&(word as i32));
    addressed(t).into_iter().zip(&t.words).all(|(is_entry, word)| !is_entry || fits(*word))
}

/// Which words of a tensor's slice are entries, of a tensor that passes 1 to 8. Label by label: from each place that was
/// reached so far every value of the label goes on.
pub fn addressed(t: &Tensor) -> Vec<bool> {
    let mut is_entry = vec![false; t.words.len()];
    if t.is_empty() {
        return is_entry;
    }
    is_entry[t.base as usize] = true;
    for (letter, extent) in labels(&[t]) {
        let stride = t.stride(letter);
        let reached: Vec<i64> = (0..).zip(&is_entry).filter(|(_, there)| **there).map(|(place, _)| place).collect();
        let steps = if stride == 0 { 1 } else { i64::from(extent) };
        for place in reached {
            (1..steps).for_each(|value| is_entry[(place + value * stride) as usize] = true);
        }
    }
    is_entry
}
