//! The ratios that are required of the tiled engine and of the delay call.

use super::contest::{ratio, Case, Times};
use super::delays::Delays;
use super::one_tile::OneTile;

pub struct Required {
    pub what: String,
    /// The other's time / the engine's.
    pub ratio: f64,
    pub least: f64,
}

impl Required {
    pub fn is_met(&self) -> bool {
        self.ratio >= self.least
    }
}

pub fn all(cases: &[(Case, Times)], one_tile: &[OneTile], delays: &[Delays]) -> Vec<Required> {
    let of_cases = cases.iter().flat_map(|(case, times)| of_case(case, times));
    of_cases.chain(one_tile.iter().filter_map(of_tile)).chain(delays.iter().filter_map(of_delay)).collect()
}

fn of_case(case: &Case, times: &Times) -> Vec<Required> {
    let odometer = (case.over_odometer, "the odometer", times.odometer);
    let nest = (case.over_nest, "the loop nest", times.nest);
    let asked = [odometer, nest].into_iter().filter_map(|(least, against, time)| Some((least?, against, time)));
    asked
        .map(|(least, against, time)| Required {
            what: format!("{}: {against}", case.name),
            ratio: ratio(time, times.tiled),
            least,
        })
        .collect()
}

fn of_tile(tile: &OneTile) -> Option<Required> {
    let least = tile.least?;
    Some(Required { what: format!("one tile: {}", tile.against), ratio: ratio(tile.loops, tile.engine), least })
}

fn of_delay(delays: &Delays) -> Option<Required> {
    let Delays { samples, greatest_lag, least, .. } = delays;
    let what = format!("the delay of {samples} samples, greatest lag {greatest_lag}: the fastest direct loop");
    Some(Required { what, ratio: ratio(delays.direct(), delays.call), least: (*least)? })
}
