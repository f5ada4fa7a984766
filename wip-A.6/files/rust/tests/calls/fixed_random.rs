//! Random contractions in fixed point against the model: 20,000 plain calls from fixed seeds, a third of them spoilt.

use crate::common::case::Case;
use crate::common::fixed::{rounded, signed};
use crate::common::fixed_both::request_of;
use crate::common::fixed_call::check_plain;
use crate::common::fixed_make::{accepted_fixed, shift, spoil_fixed};
use crate::common::make::{spoil, Kind};
use crate::common::notes::{note_labels, note_strides};
use crate::common::notes_empty::note_empty;
use crate::common::rng::Rng;
use crate::common::seen::Seen;

const TURNS: usize = 5_000;

const KINDS: [(u64, Kind); 4] = [
    (0xf1ed_0001, Kind { labels: 4, extents: &[1, 2, 3, 5, 8, 13], terms: 1_500, aligned: false }),
    (0xf1ed_0002, Kind { labels: 9, extents: &[1, 2, 2, 3, 3, 4, 5], terms: 1_000, aligned: false }),
    (0xf1ed_0003, Kind { labels: 20, extents: &[1, 1, 2, 2, 3], terms: 500, aligned: false }),
    (0xf1ed_0004, Kind { labels: 9, extents: &[1, 2, 2, 3, 3, 4], terms: 1_000, aligned: true }),
];

#[test]
fn random_contractions() {
    let mut seen = Seen::default();
    for (seed, kind) in KINDS {
        println!("seed {seed:#x}: {TURNS} contractions of up to {} labels", kind.labels);
        let mut rng = Rng::new(seed);
        for turn in 0..TURNS {
            let mut r = request_of(&accepted_fixed(&mut rng, &kind), shift(&mut rng));
            let edits = if turn % 3 == 0 { 1 + rng.below(2) } else { 0 };
            (0..edits).for_each(|_| spoil_fixed(&mut rng, &mut r));
            if edits > 0 && rng.once_in(2) {
                r.request.case.c = None;
                spoil(&mut rng, &mut r.request.case);
            }
            let found = check_plain(&r.request.case, r.shift);
            assert!(edits > 0 || found.answer == 0, "refused {}, though made to be accepted: {r:?}", found.answer);
            seen.note(&format!("answer {}", found.answer), true);
            if found.answer == 0 {
                note(&mut seen, &Case { c: None, ..r.request.case.clone() });
                note_words(&mut seen, &r.request.case.d.words, &found.words, r.shift);
            }
        }
    }
    seen.at_least("answer 0", 14_000);
    seen.each_at_least(12 + 37 + 39 + 19, 50);
}

fn note(seen: &mut Seen, case: &Case) {
    note_labels(seen, case);
    note_strides(seen, case);
    note_empty(seen, case);
}

/// Each shift, words at both ends, and words that went up and down.
fn note_words(seen: &mut Seen, before: &[u32], after: &[u32], shift: u32) {
    for of in 0..=15 {
        seen.note(&format!("shift {of}"), shift == of);
    }
    let pairs = || before.iter().zip(after).map(|(before, after)| (signed(*before), signed(*after)));
    let held = |end: i32| pairs().any(|(before, after)| before != after && after == i128::from(end));
    seen.note("a word that became 2^31 - 1", held(i32::MAX));
    seen.note("a word that became -2^31", held(i32::MIN));
    seen.note("words that went up and down", pairs().any(|(b, a)| a > b) && pairs().any(|(b, a)| a < b));
}

/// The model's own rounding: never more than half a unit from the exact quotient, and even where it is exactly half.
#[test]
fn the_model_rounds_to_nearest() {
    let mut rng = Rng::new(0xf1ed_0005);
    for shift in 0..=15 {
        let unit = 1_i128 << shift;
        let near = (-4 * unit..=4 * unit).chain([i128::from(i64::MIN), i128::from(i64::MAX)]);
        let any: Vec<i128> = (0..1_000).map(|_| i128::from(rng.next() as i64)).collect();
        for sum in near.chain(any) {
            let off = (rounded(sum, shift) * unit - sum).abs() * 2;
            assert!(off < unit || off == unit && rounded(sum, shift) % 2 == 0, "{sum}, shift {shift}");
        }
    }
}
