//! Two recordings of the run, on which the delay call is compared with its model.

use crate::common::delay::{check as compare, run_flat};
use crate::common::delay_make::{accepted, spoil};
use crate::common::delay_notes::note;
use crate::common::rng::Rng;
use crate::figures::Figures;

/// Makes two recordings from these random numbers, one pair in three damaged, and checks the call on them: by its pointers
/// at any place modulo 16 bytes, and by the safe call.
pub fn check(rng: &mut Rng, figures: &mut Figures) {
    let mut recordings = accepted(rng);
    (0..rng.pick(&[0, 0, 0, 0, 1, 2])).for_each(|_| spoil(rng, &mut recordings));
    let answer = compare(&recordings);
    let places = [rng.below(4), rng.below(4)];
    assert_eq!(run_flat(&recordings, places), answer, "at {places:?} the delay of {recordings:?}");
    figures.note_delay(answer);
    note(&mut figures.recordings, &recordings, answer);
}
