//! The tables.

use super::text::{count, digits, table, time};
use crate::clock::Pace;
use crate::contraction::Tensor;
use crate::measured::calls::{self, Call};
use crate::measured::contest::{ratio, Case, Times};
use crate::measured::delays::{self, Delays, LOOPS};
use crate::measured::forms::{self, Forms};
use crate::measured::one_tile::{self, OneTile};
use crate::measured::required::Required;
use std::time::Duration;

pub fn cases(cases: &[(Case, Times)]) -> String {
    let header = [
        "case: rows × columns × depth",
        "multiply-adds",
        "turns",
        "tiled",
        "plain",
        "odometer",
        "loop nest",
        "odometer / tiled",
        "odometer / plain",
        "loop nest / tiled",
        "loop nest / plain",
        "tiles",
        "one tile",
    ];
    table(&header, cases.iter().map(|(case, times)| case_row(case, times)))
}

fn case_row(case: &Case, times: &Times) -> Vec<String> {
    let Times { tiles, tiled, plain, odometer, nest } = *times;
    let each = [tiled, plain, odometer, nest].map(time);
    let pairs = [(odometer, tiled), (odometer, plain), (nest, tiled), (nest, plain)];
    let ratios = pairs.map(|(other, engine)| digits(ratio(other, engine)));
    let names = [case.name.to_string(), count(case.multiply_adds()), case.pace.to_string()];
    let by_tiles = [count(tiles), time(times.one_tile())];
    names.into_iter().chain(each).chain(ratios).chain(by_tiles).collect()
}

/// The layouts of the cases: letters, strides and base.
pub fn layouts(cases: &[(Case, Times)]) -> String {
    let row = |(case, _): &(Case, Times)| {
        let c = &case.contraction;
        vec![case.name.to_string(), layout(&c.a), layout(&c.b), layout(&c.d)]
    };
    table(&["case", "A", "B", "D"], cases.iter().map(row))
}

fn layout(tensor: &Tensor) -> String {
    if tensor.letters.is_empty() {
        return "no letters".to_string();
    }
    let joined = |numbers: Vec<String>| numbers.join(" ");
    let extents = joined(tensor.extents.iter().map(ToString::to_string).collect());
    let strides = joined(tensor.strides.iter().map(ToString::to_string).collect());
    let base = if tensor.base == 0 { String::new() } else { format!(", base {}", tensor.base) };
    format!("`{}` {extents}, strides {strides}{base}", tensor.letters)
}

pub fn scaling(cases: &[(Case, Times)]) -> String {
    let header = ["rows × columns × depth", "multiply-adds", "turns", "tiled", "plain", "odometer", "loop nest"];
    table(&header, cases.iter().map(|(case, times)| scaling_row(case, times)))
}

/// Each time, and in brackets the nanoseconds for a multiply-add.
fn scaling_row(case: &Case, times: &Times) -> Vec<String> {
    let shown = |whole: Duration| format!("{} ({})", time(whole), digits(case.nanos_each(whole)));
    let times = [times.tiled, times.plain, times.odometer, times.nest].map(shown);
    let names = [case.name.to_string(), count(case.multiply_adds()), case.pace.to_string()];
    names.into_iter().chain(times).collect()
}

pub fn one_tile(tiles: &[OneTile]) -> String {
    let row = |tile: &OneTile| {
        let shown = by(ratio(tile.loops, tile.engine));
        vec![tile.against.to_string(), time(tile.engine), time(tile.loops), shown]
    };
    turns(one_tile::PACE)
        + &table(&["one tile of 64×64×128 beside", "engine", "loops", "loops / engine"], tiles.iter().map(row))
}

pub fn calls(measured: &[Call]) -> String {
    let header =
        ["a call", "4×4×4", "512×512×512, no tile done", "512×512×512, one tile left", "large / small", "last / first"];
    let row = |call: &Call| {
        let times = [call.small, call.first, call.last].map(time);
        let ratios = [ratio(call.first, call.small), ratio(call.last, call.first)].map(by);
        [call.what.to_string()].into_iter().chain(times).chain(ratios).collect()
    };
    turns(calls::PACE) + &table(&header, measured.iter().map(row))
}

pub fn delays(measured: &[Delays]) -> String {
    let names = LOOPS.map(|(name, ..)| name);
    let header =
        [&["samples", "greatest lag", "multiply-adds", "call"][..], &names, &["fastest over the words / call"]];
    let row = |delays: &Delays| {
        let sizes = [delays.samples as u64, delays.greatest_lag as u64, delays.multiply_adds()].map(count);
        let times = [delays.call].into_iter().chain(delays.loops.iter().copied()).map(time);
        sizes.into_iter().chain(times).chain([by(ratio(delays.direct(), delays.call))]).collect()
    };
    turns(delays::PACE) + &table(&header.concat(), measured.iter().map(row))
}

pub fn forms(measured: &Forms) -> String {
    let row =
        |(what, spent): &(&str, Duration)| vec![what.to_string(), time(*spent), by(ratio(*spent, measured.tiled))];
    turns(forms::PACE) + &table(&["form, on 512×512×512", "time", "time / tiled"], measured.forms.iter().map(row))
}

pub fn required(required: &[Required]) -> String {
    let row = |one: &Required| {
        let found = if one.is_met() { "met" } else { "MISSED" };
        vec![one.what.clone(), format!("{:.3}", one.ratio), format!("{:.3}", one.least), found.to_string()]
    };
    table(&["engine beside", "ratio", "at least", ""], required.iter().map(row))
}

/// A line above a table whose rows all have the same turns.
pub fn turns(pace: Pace) -> String {
    format!("Turns: {pace}.\n\n")
}

pub fn by(ratio: f64) -> String {
    format!("{ratio:.2}")
}
