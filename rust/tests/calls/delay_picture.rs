//! The picture docs/delay.svg, of the example's recordings.

#[allow(dead_code)] // Its main is not run here.
#[path = "../../examples/delay.rs"]
mod example;
#[path = "../../benches/figures/shown/scores.rs"]
mod scores;
#[allow(dead_code)] // The plots of the bench use more of it.
#[path = "../../benches/figures/shown/svg.rs"]
mod svg;
#[allow(dead_code)]
#[path = "../../benches/figures/shown/text.rs"]
mod text;

use crate::common::delay::{gives, Recordings};
use example::{GREATEST_LAG, X, Y};
use std::fs;
use std::path::Path;

#[test]
fn it_is_what_the_bench_draws() {
    let path = Path::new(env!("CARGO_MANIFEST_DIR")).join("../docs/delay.svg");
    let committed = fs::read_to_string(&path).unwrap_or_else(|error| panic!("{}: {error}", path.display()));
    assert!(committed == scores::plot(&X, &Y, GREATEST_LAG), "docs/delay.svg is another one: make bench draws it");
}

#[test]
fn its_scores_are_those_of_the_model() {
    let expected = Recordings::new(&X, &Y, GREATEST_LAG).scores();
    let found = scores::scores(&X, &Y, GREATEST_LAG);
    assert_eq!(found.iter().map(|score| i128::from(*score)).collect::<Vec<_>>(), expected);
}

#[test]
fn the_example_finds_its_lag() {
    gives(&X, &Y, GREATEST_LAG, 7, 71_552);
}
