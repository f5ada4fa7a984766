//! The forms of the odometer, on 512×512×512.

use crate::clock::{best_times, Pace};
use crate::contenders::odometer::Odometer;
use crate::contenders::odometer_forms::{anew, carried, held};
use crate::contraction::TILE;
use crate::shapes;
use std::time::Duration;

pub const PACE: Pace = Pace { turns: 7, repeats: 1 };

pub struct Forms {
    pub tiled: Duration,
    /// What each form is, and its time.
    pub forms: [(&'static str, Duration); 4],
}

pub fn measure() -> Forms {
    eprintln!("measuring forms of the odometer");
    let c = shapes::matrices(512, 512, 512);
    let mut outputs = [(); 5].map(|()| c.d.words.clone());
    let [by_tiled, by_anew, by_carried, by_held, by_odometer] = &mut outputs;
    let (odometer, mut work) = (Odometer::of(&c), vec![0; TILE.work_words()]);
    let contenders: [&mut dyn FnMut(); 5] = [
        &mut || c.contract_tiled(by_tiled, &mut work),
        &mut || anew(&odometer, &c, by_anew),
        &mut || carried(&odometer, &c, by_carried),
        &mut || held(&odometer, &c, by_held),
        &mut || odometer.run(&c, by_odometer),
    ];
    let [tiled, anew, carried, held, line] = best_times(PACE, contenders);
    assert!(outputs.iter().all(|output| *output == outputs[0]), "the forms of the odometer differ");
    let forms = [
        ("a step for each term, addresses formed anew", anew),
        ("a step for each term, addresses carried along", carried),
        ("the same, the sum held while the depth runs", held),
        ("the odometer: addresses carried along, one label as a loop", line),
    ];
    Forms { tiled, forms }
}
