//! The cases by the archive before and by the one now, by both engines of each.

use super::contest::{Case, Times};
use crate::clock::{best_times, Pace};
use crate::contraction::TILE;
use crate::engines::{self, Engine, Lent};
use crate::paged::Paged;
use std::time::Duration;

/// The times of one engine.
pub struct Both {
    pub before: Duration,
    pub now: Duration,
}

pub struct Compared {
    pub name: &'static str,
    pub pace: Pace,
    pub tiled: Both,
    pub plain: Both,
}

/// None where no archive before was named.
pub fn all(cases: &[(Case, Times)]) -> Vec<Compared> {
    let compared = |before: Engine| cases.iter().map(move |(case, _)| measure(case, before));
    engines::before().into_iter().flat_map(compared).collect()
}

/// All four take turns and run equally often, so that they leave the same words.
fn measure(case: &Case, before: Engine) -> Compared {
    eprintln!("measuring {} before and now", case.name);
    let (now, lent) = (engines::now(), Lent::of(&case.contraction));
    let mut outputs = [(); 4].map(|()| Paged::of(&case.contraction.d.words));
    let mut works = [(); 2].map(|()| Paged::of(&vec![0; TILE.work_words()]));
    let [d_before, d_now, plain_before, plain_now] = outputs.each_mut().map(Paged::words_mut);
    let [work_before, work_now] = works.each_mut().map(Paged::words_mut);
    let contenders: [&mut dyn FnMut(); 4] = [
        &mut || before.contract_tiled(&lent, d_before, work_before),
        &mut || now.contract_tiled(&lent, d_now, work_now),
        &mut || before.contract(&lent, plain_before),
        &mut || now.contract(&lent, plain_now),
    ];
    let [tiled_before, tiled_now, plain_before, plain_now] = best_times(case.pace, contenders);
    let all_alike = outputs.iter().all(|output| output.words() == outputs[0].words());
    assert!(all_alike && works[0].words() == works[1].words(), "{}: the archives leave different words", case.name);
    let tiled = Both { before: tiled_before, now: tiled_now };
    let plain = Both { before: plain_before, now: plain_now };
    Compared { name: case.name, pace: case.pace, tiled, plain }
}
