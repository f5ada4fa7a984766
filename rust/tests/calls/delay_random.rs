//! Random recordings against the model: 30,000 pairs from a fixed seed, a third of them damaged.

use crate::common::delay::{check, run_flat};
use crate::common::delay_make::{accepted, spoil};
use crate::common::delay_notes::note;
use crate::common::rng::Rng;
use crate::common::seen::Seen;

const TURNS: usize = 30_000;

#[test]
fn random_recordings() {
    let (mut rng, mut seen) = (Rng::new(0xde1a_0001), Seen::default());
    for turn in 0..TURNS {
        let mut recordings = accepted(&mut rng);
        let damages = if turn % 3 == 0 { 1 + rng.below(2) } else { 0 };
        (0..damages).for_each(|_| spoil(&mut rng, &mut recordings));
        let answer = check(&recordings);
        assert!(damages > 0 || answer.is_ok(), "refused, though made to be accepted: {recordings:?}");
        note(&mut seen, &recordings, answer);
    }
    seen.each_at_least(24, 50);
}

/// The recordings may begin at any place modulo 16 bytes.
#[test]
fn any_place_in_memory() {
    let mut rng = Rng::new(0xde1a_0002);
    for _ in 0..200 {
        let recordings = accepted(&mut rng);
        for places in 0..16 {
            let found = run_flat(&recordings, [places % 4, places / 4]);
            assert_eq!(found, recordings.expected(), "at {places} the delay of {recordings:?}");
        }
    }
}
