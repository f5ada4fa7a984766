//! Random contractions against the model: 40,000 without C and 40,000 with it, from fixed seeds, a third of them spoilt by
//! an edit, and about a sixth with labels of extent 0.

use crate::common::call::check;
use crate::common::case::Case;
use crate::common::make::{accepted, accepted_with_c, spoil, Kind};
use crate::common::notes::{note_c, note_factors, note_labels, note_strides};
use crate::common::notes_empty::note_empty;
use crate::common::rng::Rng;
use crate::common::seen::Seen;

const TURNS: usize = 10_000;

const KINDS: [(u64, Kind); 4] = [
    (0x5eed_0001, Kind { labels: 4, extents: &[1, 2, 3, 5, 8, 13], terms: 1_500, aligned: false }),
    (0x5eed_0002, Kind { labels: 9, extents: &[1, 2, 2, 3, 3, 4, 5], terms: 1_000, aligned: false }),
    (0x5eed_0003, Kind { labels: 20, extents: &[1, 1, 2, 2, 3], terms: 500, aligned: false }),
    (0x5eed_0004, Kind { labels: 9, extents: &[1, 2, 2, 3, 3, 4], terms: 1_000, aligned: true }),
];

/// Checks contractions that are made so.
fn checked(make: fn(&mut Rng, &Kind) -> Case) -> Seen {
    let mut seen = Seen::default();
    for (seed, kind) in KINDS {
        println!("seed {seed:#x}: {TURNS} contractions of up to {} labels", kind.labels);
        let mut rng = Rng::new(seed);
        for turn in 0..TURNS {
            let mut case = make(&mut rng, &kind);
            let edits = if turn % 3 == 0 { 1 + rng.below(2) } else { 0 };
            (0..edits).for_each(|_| spoil(&mut rng, &mut case));
            let answer = check(&case).answer;
            assert!(edits > 0 || answer == 0, "refused {answer}, though made to be accepted: {case:?}");
            seen.note(&format!("answer {answer}"), true);
            if answer == 0 {
                note_factors(&mut seen, &case);
                note_labels(&mut seen, &case);
                note_strides(&mut seen, &case);
                note_empty(&mut seen, &case);
                note_c(&mut seen, &case);
            }
        }
    }
    seen.at_least("answer 0", 25_000);
    seen
}

#[test]
fn random_contractions() {
    checked(accepted).each_at_least(55 + 39, 250);
}

#[test]
fn random_contractions_with_c() {
    checked(accepted_with_c).each_at_least(66 + 45 + 4, 250);
}
