//! The tables of the calls in fixed point.

use super::tables::{by, layout, turns};
use super::text::{count, digits, table, time};
use crate::contenders::nests::fixed::HELD;
use crate::measured::contest::ratio;
use crate::measured::fixed::{Case, Times};
use crate::measured::small_words::{self, Asked};

const BY_TILES: &str = "\
Tile calls, each of which runs all tiles: in fixed point with shift 15, and beside it the wrapping one with both \
factors 1. They take turns on the same words in the same layouts; those of A and B are random from -32,768 to 32,767. \
The time of a call includes its questions, of which 35, in fixed point, looks at every word of A and B. *Wrapping / \
fixed point* is the speed in fixed point where the wrapping call's is 1.";

const PLAIN: &str = "\
The plain calls on the same words, and loop nests in Rust in fixed point, each compiled for one shape, which ask no \
question. All in fixed point leave the same words. The nests differ in what they hold until a word is rounded: the sum \
in 64 bits; the sum modulo 2^32 and that of the products' high halves, in 32 bits each; the sum as a double, which is \
exact up to 2^53.";

const ASKED: &str = "\
What question 35 costs: tile calls with budget 0, which run no tile. The one in fixed point looks at every word that \
A's or B's layout addresses, the wrapping one at none. *ns for a word* is the difference / the number of these words.";

/// By tiles, by the plain calls, then what question 35 costs.
pub fn fixed(cases: &[(Case, Times)], asked: &[Asked]) -> String {
    format!("{BY_TILES}\n\n{}\n{PLAIN}\n\n{}\n{ASKED} {}", tiled(cases), plain(cases), words(asked))
}

fn tiled(cases: &[(Case, Times)]) -> String {
    let header = [
        "case: rows × columns × depth",
        "in tiles of",
        "tiles",
        "turns",
        "wrapping",
        "fixed point",
        "wrapping / fixed point",
    ];
    let row = |(case, times): &(Case, Times)| {
        let sizes = format!("{}×{}×{}", case.sizes.rows, case.sizes.cols, case.sizes.depth);
        let names = [case.name.to_string(), sizes, count(times.tiles), case.pace.to_string()];
        let spent = [times.tiled.wrapping, times.tiled.fixed].map(time);
        names.into_iter().chain(spent).chain([by(times.tiled.ratio())]).collect()
    };
    table(&header, cases.iter().map(row))
}

fn plain(cases: &[(Case, Times)]) -> String {
    let names = ["case: rows × columns × depth", "turns", "wrapping", "fixed point"];
    let header = [&names[..], &HELD, &["wrapping / fixed point", "fastest nest / fixed point"]];
    let row = |(case, times): &(Case, Times)| {
        let spent = [times.plain.wrapping, times.plain.fixed].into_iter().chain(times.nests).map(time);
        let ratios = [times.plain.ratio(), ratio(times.fastest_nest(), times.plain.fixed)].map(by);
        [case.name.to_string(), case.pace.to_string()].into_iter().chain(spent).chain(ratios).collect()
    };
    table(&header.concat(), cases.iter().map(row))
}

fn words(asked: &[Asked]) -> String {
    let header = ["A", "B", "words", "budget 0, wrapping", "budget 0, fixed point", "ns for a word"];
    let row = |one: &Asked| {
        let layouts = [&one.contraction.a, &one.contraction.b].map(layout);
        let spent = [one.wrapping, one.fixed].map(time);
        layouts.into_iter().chain([count(one.words())]).chain(spent).chain([digits(one.nanos_each())]).collect()
    };
    turns(small_words::PACE) + &table(&header, asked.iter().map(row))
}
