//! One contraction by all four contenders, which take turns on the same words.

use crate::clock::{best_times, Pace};
use crate::contenders::nests::Nest;
use crate::contenders::odometer::Odometer;
use crate::contraction::{Contraction, TILE};
use std::time::Duration;

pub struct Case {
    /// Rows × columns × depth, and what is special.
    pub name: &'static str,
    pub contraction: Contraction,
    pub nest: Nest,
    pub pace: Pace,
    /// The least that odometer time / tiled time has to be.
    pub over_odometer: Option<f64>,
    /// The least that loop nest time / tiled time has to be.
    pub over_nest: Option<f64>,
}

pub struct Times {
    /// How many tiles the tiled engine runs.
    pub tiles: u64,
    pub tiled: Duration,
    pub plain: Duration,
    pub odometer: Duration,
    pub nest: Duration,
}

impl Times {
    /// The tiled time / the number of tiles.
    pub fn one_tile(&self) -> Duration {
        self.tiled.div_f64(self.tiles as f64)
    }
}

impl Case {
    /// A case of which no ratio is required.
    pub fn new(name: &'static str, contraction: Contraction, nest: Nest, pace: Pace) -> Self {
        Self { name, contraction, nest, pace, over_odometer: None, over_nest: None }
    }

    /// Each contender has a D of its own. All run equally often, so the words are the same after each turn; they are
    /// compared after the first, which is not timed, and after the last.
    pub fn measure(&self) -> Times {
        eprintln!("measuring {}", self.name);
        let mut outputs = [(); 4].map(|()| self.contraction.d.words.clone());
        self.run(Pace { turns: 1, repeats: 1 }, &mut outputs);
        let [tiled, plain, odometer, nest] = self.run(self.pace, &mut outputs);
        Times { tiles: self.tiles(), tiled, plain, odometer, nest }
    }

    fn run(&self, pace: Pace, outputs: &mut [Vec<u32>; 4]) -> [Duration; 4] {
        let c = &self.contraction;
        let [by_tiled, by_plain, by_odometer, by_nest] = &mut *outputs;
        let (odometer, mut work) = (Odometer::of(c), vec![0; TILE.work_words()]);
        let contenders: [&mut dyn FnMut(); 4] = [
            &mut || c.contract_tiled(by_tiled, &mut work),
            &mut || c.contract(by_plain),
            &mut || odometer.run(c, by_odometer),
            &mut || (self.nest)(c, by_nest),
        ];
        let times = best_times(pace, contenders);
        self.compare(outputs);
        times
    }

    fn tiles(&self) -> u64 {
        let (mut d, mut work) = (self.contraction.d.words.clone(), vec![0; TILE.work_words()]);
        self.contraction.run_all_tiles(&mut d, TILE, &mut work)
    }

    /// The product of the extents of all labels.
    pub fn multiply_adds(&self) -> u64 {
        Odometer::of(&self.contraction).labels.iter().map(|label| label.extent as u64).product()
    }

    /// The nanoseconds of a whole time that are those of one multiply-add.
    pub fn nanos_each(&self, whole: Duration) -> f64 {
        whole.as_secs_f64() * 1e9 / self.multiply_adds() as f64
    }

    fn compare(&self, [by_tiled, by_plain, by_odometer, by_nest]: &[Vec<u32>; 4]) {
        let name = self.name;
        assert!(by_odometer != &self.contraction.d.words, "{name}: the odometer left D as it was");
        assert!(by_tiled == by_odometer, "{name}: the tiled engine and the odometer differ");
        assert!(by_plain == by_odometer, "{name}: the plain engine and the odometer differ");
        assert!(by_nest == by_odometer, "{name}: the loop nest and the odometer differ");
    }
}

/// How many times longer the other takes.
pub fn ratio(other: Duration, engine: Duration) -> f64 {
    other.as_secs_f64() / engine.as_secs_f64()
}
