//! The tables of the archive now beside the one before.

use super::tables::{by, turns};
use super::text::{table, time};
use crate::measured::before::{Both, Compared};
use crate::measured::contest::ratio;
use crate::measured::stretches::{self, Block};
use crate::measured::walks::Walked;
use std::time::Duration;

/// What stands where no archive before was named.
const NONE: &str = "-";

/// The times before and now, and their ratio.
fn cells(before: Option<Duration>, now: Duration) -> [String; 3] {
    let shown = |cell: Option<String>| cell.unwrap_or(NONE.to_string());
    [shown(before.map(time)), time(now), shown(before.map(|before| by(ratio(before, now))))]
}

pub fn blocks(blocks: &[Block]) -> String {
    let header = ["case: rows × columns × depth", "stretches", "before", "now", "before / now", "now / step 1"];
    let row = |block: &Block| {
        let names = [block.name.clone(), block.stretches.to_string()];
        let last = by(ratio(block.now, block.step_1));
        names.into_iter().chain(cells(block.before, block.now)).chain([last]).collect()
    };
    turns(stretches::PACE) + &table(&header, blocks.iter().map(row))
}

/// A table to stand after others, or nothing where no archive before was named.
pub fn cases(cases: &[Compared]) -> String {
    if cases.is_empty() {
        return String::new();
    }
    let header = [
        "case: rows × columns × depth",
        "turns",
        "tiled before",
        "tiled now",
        "before / now",
        "plain before",
        "plain now",
        "before / now",
    ];
    let row = |case: &Compared| {
        let [tiled, plain] = [&case.tiled, &case.plain].map(|Both { before, now }| cells(Some(*before), *now));
        [case.name.to_string(), case.pace.to_string()].into_iter().chain(tiled).chain(plain).collect()
    };
    format!("\n{}", table(&header, cases.iter().map(row)))
}

pub fn walks(walks: &[Walked]) -> String {
    let header = ["plain engine", "turns", "before", "now", "before / now"];
    let row = |walk: &Walked| {
        [walk.name.clone(), walk.pace.to_string()].into_iter().chain(cells(walk.before, walk.now)).collect()
    };
    table(&header, walks.iter().map(row))
}
