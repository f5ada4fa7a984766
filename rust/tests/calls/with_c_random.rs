//! What holds of random contractions with C whatever their words are.

use crate::common::call;
use crate::common::case::{same_words, Case};
use crate::common::list::List;
use crate::common::make::{accepted, accepted_with_c, Kind};
use crate::common::rng::Rng;
use nezgrak::TileSizes;

const TURNS: usize = 1_500;

const KINDS: [Kind; 3] = [
    Kind { labels: 5, extents: &[1, 2, 3, 5, 8], terms: 600, aligned: false },
    Kind { labels: 9, extents: &[1, 2, 2, 3, 3, 4], terms: 600, aligned: true },
    Kind { labels: 20, extents: &[1, 1, 2, 2, 3], terms: 300, aligned: false },
];

/// Calls with each of many contractions that are made so.
fn for_each(seed: u64, make: fn(&mut Rng, &Kind) -> Case, mut visit: impl FnMut(&mut Rng, Case)) {
    println!("seed {seed:#x}");
    let mut rng = Rng::new(seed);
    for kind in &KINDS {
        for _ in 0..TURNS {
            let case = make(&mut rng, kind);
            visit(&mut rng, case);
        }
    }
}

/// D's words after each of a few tile calls, from the first tile on.
fn words_after_each(case: &Case, sizes: TileSizes, budgets: &[u64]) -> Vec<Vec<u32>> {
    let (mut list, mut rng) = (List::new(case, sizes, 0), Rng::new(7));
    let mut words_after = |budget: &u64| {
        list.step(*budget, &mut rng);
        list.words().to_vec()
    };
    budgets.iter().map(&mut words_after).collect()
}

fn sizes_and_budgets(rng: &mut Rng) -> (TileSizes, Vec<u64>) {
    let mut size = || rng.pick(&[1, 1, 2, 3, 5, 64]);
    let sizes = TileSizes { rows: size(), cols: size(), depth: size() };
    let few = (0..4).map(|_| rng.pick(&[0, 1, 2, 3, 9])).collect::<Vec<_>>();
    (sizes, [few, vec![u64::MAX]].concat())
}

/// The same words after the plain call, and after each tile call.
fn leave_the_same(rng: &mut Rng, case: &Case, other: &Case) {
    same_words("D", case, &call::run(case).words, &call::run(other).words);
    let (sizes, budgets) = sizes_and_budgets(rng);
    let (found, expected) = (words_after_each(case, sizes, &budgets), words_after_each(other, sizes, &budgets));
    found.iter().zip(&expected).for_each(|(found, expected)| same_words("D", case, found, expected));
}

/// A C with D's layout and D's old words leaves what the form without C leaves.
#[test]
fn a_copy_of_d_as_c() {
    for_each(0xc0_0001, accepted, |rng, case| {
        let with_copy = Case { c: Some(case.d.clone()), ..case.clone() };
        leave_the_same(rng, &with_copy, &case);
    });
}

/// The axes of C in another order address the same words.
#[test]
fn the_axes_of_c_in_another_order() {
    for_each(0xc0_0002, accepted_with_c, |rng, case| {
        let mut turned = case.clone();
        let c = turned.tensor_mut(3);
        let last = rng.below(c.letters.len().max(1));
        c.letters.rotate_left(last);
        c.extents.rotate_left(last);
        c.strides.rotate_left(last);
        leave_the_same(rng, &turned, &case);
    });
}

/// With C, D's old words show only where nothing is written: other old words change no other word.
#[test]
fn the_old_words_of_d_do_not_count() {
    let mut written = 0;
    for_each(0xc0_0003, accepted_with_c, |_, case| {
        let mut other = case.clone();
        other.d.words.iter_mut().for_each(|word| *word = !*word);
        let (found, of_other) = (call::run(&case).words, call::run(&other).words);
        for (place, (word, of_other)) in found.iter().zip(&of_other).enumerate() {
            let is_old = *word == case.d.words[place] && *of_other == other.d.words[place];
            assert!(word == of_other || is_old, "word {place} of {case:?}");
            written += usize::from(word == of_other);
        }
    });
    assert!(written > 10_000, "only {written} words written");
}
