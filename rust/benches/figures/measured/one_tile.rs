//! One tile of 64×64×128, packing included, beside the same packed loops in safe Rust.

use crate::clock::{best_times, Pace};
use crate::contenders::packed::{known_sizes, unknown_sizes};
use crate::contraction::{Contraction, TILE};
use crate::shapes;
use std::time::Duration;

pub const PACE: Pace = Pace { turns: 200, repeats: 20 };

pub struct OneTile {
    pub against: &'static str,
    pub engine: Duration,
    pub loops: Duration,
    /// The least that loops / engine has to be.
    pub least: Option<f64>,
}

pub fn all() -> [OneTile; 2] {
    [
        measure("packed loops that can't know the sizes", unknown_sizes, Some(1.0)),
        measure("packed loops compiled for these sizes", known_sizes, None),
    ]
}

fn measure(against: &'static str, run_loops: fn(&Contraction, &mut [u32], &mut [u32]), least: Option<f64>) -> OneTile {
    eprintln!("measuring one tile and {against}");
    let c = shapes::matrices(64, 64, 128);
    let (mut d, mut work) = (c.d.words.clone(), vec![0; TILE.work_words()]);
    let (mut loops_d, mut loops_work) = (d.clone(), work.clone());
    let contenders: [&mut dyn FnMut(); 2] =
        [&mut || c.contract_tiled(&mut d, &mut work), &mut || run_loops(&c, &mut loops_d, &mut loops_work)];
    let [engine, loops] = best_times(PACE, contenders);
    assert!(d == loops_d && work == loops_work, "one tile: the engine and the {against} differ");
    OneTile { against, engine, loops, least }
}
