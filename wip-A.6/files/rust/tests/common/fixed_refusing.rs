//! A sound request in fixed point, ways to make one question of it fail, and calls that have to refuse it.

use super::broken;
use super::case::Case;
use super::fixed_call::{check_plain, check_run, same_fixed};
use super::fixed_make::OUTSIDE;
use super::fixed_request::{FixedRan, FixedRequest};
use super::refusing::refuses_state;

/// In the order in which they are asked.
pub const OF_PLAIN: [u32; 11] = [1, 2, 3, 4, 5, 6, 7, 8, 9, 34, 35];
pub const OF_TILES: [u32; 15] = [1, 2, 3, 4, 5, 6, 7, 8, 9, 10, 11, 12, 33, 34, 35];

/// Four tiles, of which the second and the third are to run, with no word of a slice and no sum to spare.
pub fn sound_request() -> FixedRequest {
    FixedRequest { request: broken::sound_request(), shift: 2, sums: vec![-5, 1 << 40, 3, i64::MIN] }
}

pub type Break = Box<dyn Fn(&mut FixedRequest)>;

/// Every way to break the question of that number, each of which breaks no earlier one. A count just above the total is not
/// among those of 12, since a deeper contraction has more tiles.
pub fn ways(number: u32) -> Vec<Break> {
    match number {
        12 => with_values(&[1 << 32, u64::MAX], |r, done| r.request.done = done),
        33 => with_values(&[3, 1, 0], |r, length| r.sums.truncate(length)),
        34 => with_values(&[16, 17, 31, 32, 1 << 16, u32::MAX], |r, shift| r.shift = shift)
            .into_iter()
            .chain(with_values(DEEPER, |r, edit| edit(&mut r.request.case)))
            .collect(),
        35 => with_values(&[0, 1], put_outside_at_each_place).into_iter().chain(each_place()).collect(),
        _ => broken::ways(number).into_iter().map(|way| -> Break { Box::new(move |r| way(&mut r.request)) }).collect(),
    }
}

/// More depth than 65,536, where there are 3 depth counts: in A, in B, and with a label of each.
const DEEPER: &[fn(&mut Case)] = &[
    |case| case.a.push(b'o', 65_536, 0),
    |case| case.b.push(b'o', 21_846, 0),
    |case| {
        case.a.push(b'o', 256, 0);
        case.b.push(b'p', 256, 0);
    },
];

fn with_values<T: Copy + 'static>(values: &'static [T], set: fn(&mut FixedRequest, T)) -> Vec<Break> {
    values.iter().map(|value| -> Break { Box::new(move |r| set(r, *value)) }).collect()
}

fn put_outside_at_each_place(r: &mut FixedRequest, which: usize) {
    r.request.case.tensor_mut(which).words.iter_mut().for_each(|word| *word = OUTSIDE[0] as u32);
}

/// One word outside, at each place of A and of B.
fn each_place() -> impl Iterator<Item = Break> {
    let places = (0..2).flat_map(|which| (0..6).map(move |place| (which, place)));
    places.map(|(which, place)| -> Break {
        Box::new(move |r| {
            let words = &mut r.request.case.tensor_mut(which).words;
            words.iter_mut().skip(place).take(1).for_each(|word| *word = OUTSIDE[which * 6 + place] as u32);
        })
    })
}

pub fn broken(breaks: &[&Break]) -> FixedRequest {
    let mut request = sound_request();
    breaks.iter().for_each(|way| way(&mut request));
    request
}

/// A call that has to refuse a request by a number.
pub type Refuses = fn(&FixedRequest, u32);

pub fn refuses_plain(r: &FixedRequest, number: u32) {
    let found = check_plain(&r.request.case, r.shift);
    assert_eq!((found.answer, &found.words), (number, &r.request.case.d.words), "{r:?}");
}

/// Whatever the budget and also where all tiles are done, a refused tile call gives the count back.
pub fn refuses_tiles(r: &FixedRequest, number: u32) {
    for budget in [0, r.request.budget] {
        let mut tried = r.clone();
        tried.request.budget = budget;
        same_fixed(&tried, &check_run(&tried), &FixedRan::refused(&tried, number));
    }
}

/// The state question is that of other tile calls.
pub fn refuses_state_question(r: &FixedRequest, number: u32) {
    refuses_state(&r.request, number);
}
