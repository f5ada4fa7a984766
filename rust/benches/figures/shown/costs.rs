//! The tables of what a call and a tile cost.

use super::tables::turns;
use super::text::{count, digits, table, time};
use crate::measured::labels::{self, Labelled};
use crate::measured::tile_sizes::{self, InTiles};
use std::time::Duration;

/// By the number of labels, then by the sizes of the tiles.
pub fn costs(by_labels: &[Labelled], by_sizes: &[InTiles]) -> String {
    format!("{}\n{}", labels(by_labels), sizes(by_sizes))
}

fn labels(measured: &[Labelled]) -> String {
    let header = ["labels", "tiles of 1×1×1", "budget 0", "one tile", "one tile - budget 0", "each further tile"];
    let row = |one: &Labelled| {
        let names = [one.labels.to_string(), format!("`{}`", one.letters)];
        let further = one.further.map_or("-".to_string(), time);
        let times = [one.none, one.one, one.one.saturating_sub(one.none)].map(time);
        names.into_iter().chain(times).chain([further]).collect()
    };
    turns(labels::PACE) + &table(&header, measured.iter().map(row))
}

fn sizes(measured: &[InTiles]) -> String {
    let header =
        ["512×512×512 in tiles of", "tiles", "time", "one tile", "ns for a multiply-add", "time / the shortest"];
    let shortest = measured.iter().map(|one| one.time).min().unwrap_or(Duration::MAX);
    let row = |one: &InTiles| {
        let name = format!("{}×{}×{}", one.sizes.rows, one.sizes.cols, one.sizes.depth);
        let times = [one.time, one.one_tile()].map(time);
        let last = [digits(one.nanos_each()), digits(one.time.as_secs_f64() / shortest.as_secs_f64())];
        [name, count(one.tiles)].into_iter().chain(times).chain(last).collect()
    };
    turns(tile_sizes::PACE) + &table(&header, measured.iter().map(row))
}
