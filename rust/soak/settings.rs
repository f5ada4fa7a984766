//! What the environment asks for: SEED, COUNT, and CONTRACTION, RECORDINGS or FILE to repeat one of them alone.

use std::{env, fmt};

/// How many contractions, pairs of recordings and job files a full run has.
const COUNT: u64 = 1_000_000;
const RECORDINGS: u64 = 100_000;
pub const FILES: u64 = 100_000;

const SEED: u64 = 1;

pub struct Settings {
    pub seed: u64,
    pub count: u64,
    pub alone: Option<Item>,
}

/// One thing that a run checks. It is shown as the variable that repeats it.
#[derive(Clone, Copy)]
pub enum Item {
    Contraction(u64),
    Recordings(u64),
    File(u64),
}

impl fmt::Display for Item {
    fn fmt(&self, f: &mut fmt::Formatter<'_>) -> fmt::Result {
        match self {
            Item::Contraction(number) => f.pad(&format!("CONTRACTION={number}")),
            Item::Recordings(number) => f.pad(&format!("RECORDINGS={number}")),
            Item::File(number) => f.pad(&format!("FILE={number}")),
        }
    }
}

impl Settings {
    pub fn read() -> Self {
        let contraction = number("CONTRACTION").map(Item::Contraction);
        let alone = contraction.or(number("RECORDINGS").map(Item::Recordings)).or(number("FILE").map(Item::File));
        Self { seed: number("SEED").unwrap_or(SEED), count: number("COUNT").unwrap_or(COUNT), alone }
    }

    /// Job files in proportion to the contractions. A file that is repeated alone is one of all.
    pub fn files(&self) -> u64 {
        match self.alone {
            Some(_) => FILES,
            None => (self.count.min(COUNT) * FILES).div_ceil(COUNT),
        }
    }

    /// Pairs of recordings in proportion to the contractions.
    pub fn recordings(&self) -> u64 {
        (self.count * RECORDINGS).div_ceil(COUNT)
    }

    pub fn is_full(&self) -> bool {
        self.count == COUNT && self.alone.is_none()
    }
}

fn number(name: &str) -> Option<u64> {
    let text = env::var(name).ok().filter(|text| !text.is_empty())?;
    Some(text.parse().unwrap_or_else(|_| panic!("{name} is no whole number: {text:?}")))
}
