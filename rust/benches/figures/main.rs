//! How long the engine takes, beside other ways to contract the same words in the same run. Prints tables, puts them
//! into docs/PERFORMANCE.md and draws the plots beside it. Ends with status 1 where a required ratio is missed, and
//! panics where two contenders leave different words.

mod blocks;
mod clock;
mod contenders;
mod contraction;
mod engines;
#[allow(dead_code)] // Its main is not run here.
#[path = "../../examples/delay.rs"]
mod example;
mod measured;
mod paged;
mod shapes;
mod shown;

use measured::contest::{Case, Times};
use measured::required::Required;
use measured::{
    before, calls, cases, delays, forms, labels, one_tile, required, scaling, stretches, tile_sizes, walks,
};
use shown::{archives, bars, costs, document, lines, machine, scores, tables};
use std::process::ExitCode;

fn main() -> ExitCode {
    let (cases, one_tile, scaling) = (measure(cases::all()), one_tile::all(), measure(scaling::all()));
    let (calls, delays, forms) = (calls::all(), delays::all(), forms::measure());
    let (stretches, before) = (stretches::all(), before::all(&cases));
    let required = required::all(&cases, &one_tile, &delays);
    let sections = [
        ("Required ratios", tables::required(&required)),
        ("Cases", tables::cases(&cases) + "\n" + &tables::layouts(&cases) + &archives::cases(&before)),
        ("Scaling", tables::scaling(&scaling)),
        ("One tile", tables::one_tile(&one_tile)),
        ("Blocks by stretches", archives::blocks(&stretches)),
        ("Walks of the plain engine", archives::walks(&walks::all())),
        ("Calls", tables::calls(&calls)),
        ("What a call and a tile cost", costs::costs(&labels::all(), &tile_sizes::all())),
        ("Delay", tables::delays(&delays)),
        ("Forms of the odometer", tables::forms(&forms)),
        ("Machine", machine::machine()),
    ];
    let text: String = sections.iter().map(|(title, section)| format!("\n### {title}\n\n{section}")).collect();
    println!("{text}");
    document::write_tables(&(text + "\n"));
    document::write_plot("speed.svg", &bars::plot(&cases));
    document::write_plot("scaling.svg", &lines::plot(&scaling));
    document::write_plot("delay.svg", &scores::plot(&example::X, &example::Y, example::GREATEST_LAG));
    status(&required)
}

fn measure(cases: Vec<Case>) -> Vec<(Case, Times)> {
    let timed = |case: Case| {
        let times = case.measure();
        (case, times)
    };
    cases.into_iter().map(timed).collect()
}

fn status(required: &[Required]) -> ExitCode {
    if required.iter().all(Required::is_met) {
        ExitCode::SUCCESS
    } else {
        ExitCode::FAILURE
    }
}
