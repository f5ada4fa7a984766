//! The lent slice of sums: where a sum stands, when it starts from 0, what stays there, and any 64-bit number met in it.

use crate::common::case::{Case, Tensor};
use crate::common::fixed_call::check_run;
use crate::common::fixed_list::FixedList;
use crate::common::fixed_request::FixedRequest;
use crate::common::request::Request;
use crate::common::rng::Rng;
use nezgrak::{OutputIndex, TileSizes};

fn words(numbers: &[i32]) -> Vec<u32> {
    numbers.iter().map(|number| *number as u32).collect()
}

/// D(i) = the sum over k of A(i,k) × B(k), where D has a word between its two and one after them.
fn two_words() -> Case {
    let a = Tensor::new("ik", &[2, 5], &[5, 1], 0, &words(&[1, -2, 3, -4, 5, 10, 20, 30, 40, 50]));
    let b = Tensor::new("k", &[5], &[1], 0, &words(&[2, 2, 2, 2, 2]));
    let d = Tensor::new("i", &[2], &[2], 0, &words(&[100, 77, -100, 78]));
    Case { a, b, c: None, d, alpha: 1, beta: 1 }
}

/// Two rows at a time, in panels of two: three tiles.
const SIZES: TileSizes = TileSizes { rows: 2, cols: 1, depth: 2 };

fn request(case: &Case, sizes: TileSizes, shift: u32, done: u64, budget: u64, sums: &[i64]) -> FixedRequest {
    let (work, index) = (vec![7; sizes.work_words()], OutputIndex::new(0, 0, 0));
    let request = Request { case: case.clone(), sizes, done, budget, work, index };
    FixedRequest { request, shift, sums: sums.to_vec() }
}

/// The words of D and the sums after a call.
fn after(r: &FixedRequest) -> (Vec<i32>, Vec<i64>) {
    let found = check_run(r);
    assert_eq!(found.ran.answer, 0, "{r:?}");
    (found.ran.words.iter().map(|word| *word as i32).collect(), found.sums)
}

/// Panel by panel: D keeps its words until the last one, and each sum is that of the panels done.
#[test]
fn panel_by_panel() {
    let (case, old) = (two_words(), vec![100, 77, -100, 78]);
    let from = [i64::MAX, 5, i64::MIN, 6, 7];
    assert_eq!(after(&request(&case, SIZES, 2, 0, 1, &from)), (old.clone(), vec![-2, 5, 60, 6, 7]));
    assert_eq!(after(&request(&case, SIZES, 2, 0, 2, &from)), (old, vec![-4, 5, 200, 6, 7]));
    assert_eq!(after(&request(&case, SIZES, 2, 0, 3, &from)), (vec![102, 77, -25, 78], vec![6, 5, 300, 6, 7]));
}

/// After the last tile the sums stay, and a call changes nothing more.
#[test]
fn sums_stay_after_the_last_panel() {
    let mut case = two_words();
    case.d.words = words(&[102, 77, -25, 78]);
    for budget in [0, 1, u64::MAX] {
        let found = after(&request(&case, SIZES, 2, 3, budget, &[6, 5, 300, 6]));
        assert_eq!(found, (vec![102, 77, -25, 78], vec![6, 5, 300, 6]));
    }
}

/// From tile 1 on panel 0 is not run: what is met in the slice is added to, and divided with the rest.
#[test]
fn later_panels_add_to_what_is_there() {
    let found = after(&request(&two_words(), SIZES, 2, 1, 2, &[1_000, 5, -1_000, 6]));
    assert_eq!(found, (vec![100 + 252, 77, -100 - 190, 78], vec![1_008, 5, -760, 6]));
}

/// A word whose last panel is not run keeps its value, whatever its sum is.
#[test]
fn no_word_before_its_last_panel() {
    let found = after(&request(&two_words(), SIZES, 0, 1, 1, &[1 << 50, 5, -(1 << 50), 6]));
    assert_eq!(found, (vec![100, 77, -100, 78], vec![(1 << 50) - 2, 5, -(1 << 50) + 140, 6]));
}

/// One word by its last panel, which adds this, onto a sum that is met and an old word.
fn last_panel(met: i64, part: i32, old: i32, shift: u32) -> (i32, i64) {
    let a = Tensor::new("k", &[2], &[1], 0, &words(&[9, part]));
    let b = Tensor::new("k", &[2], &[1], 0, &words(&[9, 1]));
    let case = Case { a, b, c: None, d: Tensor::scalar(old as u32), alpha: 1, beta: 1 };
    let sizes = TileSizes { rows: 1, cols: 1, depth: 1 };
    let (found, sums) = after(&request(&case, sizes, shift, 1, 1, &[met]));
    (found[0], sums[0])
}

/// Sums add modulo 2^64.
#[test]
fn sums_wrap_around() {
    assert_eq!(last_panel(i64::MAX, 1, 0, 0), (i32::MIN, i64::MIN));
    assert_eq!(last_panel(i64::MIN, -1, 0, 0), (i32::MAX, i64::MAX));
    assert_eq!(last_panel(i64::MAX, 32_767, 5, 15), (i32::MIN, i64::MIN + 32_766));
    assert_eq!(last_panel(i64::MIN, -32_768, 5, 15), (i32::MAX, i64::MAX - 32_767));
}

/// Old + rounded part needs 65 bits, and is held at the ends all the same.
#[test]
fn the_whole_needs_more_than_64_bits() {
    assert_eq!(last_panel(i64::MAX, 0, i32::MAX, 0), (i32::MAX, i64::MAX));
    assert_eq!(last_panel(i64::MIN, 0, i32::MIN, 0), (i32::MIN, i64::MIN));
    assert_eq!(last_panel(i64::MAX, 0, i32::MIN, 0), (i32::MAX, i64::MAX));
    assert_eq!(last_panel(i64::MIN, 0, i32::MAX, 0), (i32::MIN, i64::MIN));
}

/// Half a unit more than the greatest sum needs 65 bits too.
#[test]
fn rounding_at_the_ends_of_64_bits() {
    for shift in 0..=15 {
        for near in 0..3 {
            assert_eq!(last_panel(i64::MAX - near, 0, 0, shift), (i32::MAX, i64::MAX - near));
            assert_eq!(last_panel(i64::MIN + near, 0, 0, shift), (i32::MIN, i64::MIN + near));
        }
    }
}

/// Sums around every tie, of both signs, near 0 and near the sizes that are held, at every shift.
#[test]
fn ties_in_sums_that_are_met() {
    for shift in 0..=15 {
        for n in [-(1_i64 << 31), -(1 << 20) - 1, -3, -2, -1, 0, 1, 2, (1 << 20) + 1, (1 << 31) - 2, (1 << 31) - 1] {
            let (unit, half) = (1_i64 << shift, (1_i64 << shift) / 2);
            for beside in [-1, 0, 1] {
                let sum = n * unit + half + beside;
                for old in [-1, 0, 1, 2] {
                    let (word, after) = last_panel(sum - 1, 1, old, shift);
                    assert_eq!(after, sum);
                    let off = i128::from(i64::from(word) - i64::from(old)) * i128::from(unit) - i128::from(sum);
                    let is_held = word == i32::MIN || word == i32::MAX;
                    assert!(is_held || off.abs() * 2 <= i128::from(unit), "{word} of {sum}, shift {shift}, old {old}");
                }
            }
        }
    }
}

/// The slice may be longer than D's, by one or by many, and what is past D's length is never touched.
#[test]
fn longer_slices_of_sums() {
    for more in [0, 1, 2, 1_000, 70_000] {
        let mut rng = Rng::new(more as u64);
        let sums = (0..4 + more).map(|_| rng.next() as i64).collect();
        let mut list = FixedList::new(&two_words(), 3, SIZES, 0, sums);
        while list.left() > 0 {
            list.step(1, &mut rng);
        }
    }
}

/// A D with more words than entries: a sum stands at its word's place, and not at the number of the word.
#[test]
fn sums_at_the_places_of_their_words() {
    let mut case = two_words();
    case.d = Tensor::new("i", &[2], &[-6], 8, &words(&[0; 11]));
    let from: Vec<i64> = (0..11).collect();
    let (found, sums) = after(&request(&case, SIZES, 0, 0, 3, &from));
    assert_eq!(found, [0, 0, 300, 0, 0, 0, 0, 0, 6, 0, 0]);
    assert_eq!(sums, [0, 1, 300, 3, 4, 5, 6, 7, 6, 9, 10]);
}
