//! A random contraction, small enough for a few microseconds. One in three names C, and one in three is damaged.

use crate::common::case::{Case, Tensor};
use crate::common::job_model::terms;
use crate::common::make::{accepted, accepted_with_c, spoil, Kind};
use crate::common::questions::{first_no, product};
use crate::common::rng::Rng;

/// A contraction that is accepted has at most so many terms.
const TERMS: u32 = 2_000;

const LIMIT: i32 = 16_777_216;

/// Few labels, several, so many that ranks reach 8, labels that fold, and groups that are larger than any tile.
const KINDS: [Kind; 5] = [
    Kind { labels: 4, extents: &[1, 2, 3, 5, 8], terms: 60, aligned: false },
    Kind { labels: 9, extents: &[1, 2, 2, 3, 3, 4], terms: 72, aligned: false },
    Kind { labels: 20, extents: &[1, 1, 2, 2, 3], terms: 48, aligned: false },
    Kind { labels: 9, extents: &[1, 2, 2, 3, 3, 4], terms: 72, aligned: true },
    Kind { labels: 4, extents: &[1, 2, 5, 70, 130], terms: 700, aligned: false },
];

/// A damage that leaves a contraction with too many terms is taken back.
pub fn contraction(rng: &mut Rng) -> Case {
    let kind = rng.pick(&[0, 0, 0, 1, 1, 1, 2, 2, 2, 3, 3, 3, 4]);
    let make = if rng.once_in(3) { accepted_with_c } else { accepted };
    let sound = make(rng, &KINDS[kind]);
    let mut damaged = sound.clone();
    (0..rng.pick(&[0, 0, 0, 0, 1, 2])).for_each(|_| damage(rng, &mut damaged));
    if terms(&damaged) > u128::from(TERMS) && first_no(&damaged) == 0 {
        sound
    } else {
        damaged
    }
}

/// An edit that is meant for one question, or any value at any place.
fn damage(rng: &mut Rng, case: &mut Case) {
    let which = rng.below(if case.c.is_some() { 4 } else { 3 });
    match rng.below(20) {
        0 => fill_product(rng, case, which),
        1..=6 => set_anything(rng, case.tensor_mut(which)),
        _ => spoil(rng, case),
    }
}

/// Two more labels, so that the product of all extents is at the limit of question 7 or just over it. Question 8
/// refuses where 7 does not, unless the tensor has no entries. C and D get them together.
fn fill_product(rng: &mut Rng, case: &mut Case, which: usize) {
    let room = product(case).map_or(0, |product| ((1 << 30) / product) as u32);
    let first = if room < 16_384 { 1 } else { 16_384 };
    let second = room / first + rng.pick(&[0, 0, 1]);
    let tensors: &[usize] = if which >= 2 && case.c.is_some() { &[2, 3] } else { &[which] };
    for t in tensors {
        case.tensor_mut(*t).push(b'y', first, 1);
        case.tensor_mut(*t).push(b'z', second, 1);
    }
}

fn set_anything(rng: &mut Rng, t: &mut Tensor) {
    let any = rng.word();
    let axes = t.letters.len().min(t.extents.len()).min(t.strides.len());
    let axis = rng.below(axes.max(1));
    match rng.below(6) {
        0 if axes > 0 => t.letters[axis] = any as u8,
        1 if axes > 0 => t.extents[axis] = rng.pick(&[0, 1, 2, any % 200, 65_535, 65_536, 65_537, any]),
        2 if axes > 0 => t.strides[axis] = stride(rng),
        3 => t.base = rng.pick(&[0, any % 20, LIMIT as u32, LIMIT as u32 + 1, any]),
        4 => t.words.truncate(rng.below(t.words.len() + 1)),
        _ => (0..1 + rng.below(12)).for_each(|_| t.push(letter(rng), rng.pick(&[1, 1, 1, 2]), stride(rng))),
    }
}

fn letter(rng: &mut Rng) -> u8 {
    rng.pick(b"abcdefghijklmnopqrstuvwxyzABCDEFGHIJKLMNOPQRSTUVWXYZ")
}

fn stride(rng: &mut Rng) -> i32 {
    let any = rng.word() as i32;
    rng.pick(&[0, 0, 1, -1, any % 20, any % 300, LIMIT, -LIMIT, LIMIT + 1, -LIMIT - 1, any])
}
