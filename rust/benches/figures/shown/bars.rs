//! Horizontal bars: the speed of each contender on each case, that of the odometer being 1.

use super::svg::{legend, Anchor, Svg, GRID, INK, NEST, PLAIN, TILED};
use super::text::digits;
use crate::measured::contest::{ratio, Case, Times};

const WIDTH: f64 = 860.0;
const LEFT: f64 = 310.0;
const RIGHT: f64 = 50.0;
const TOP: f64 = 80.0;
const BOTTOM: f64 = 60.0;
const BAR: f64 = 16.0;
const GROUP: f64 = 3.0 * BAR + 18.0;

pub fn plot(cases: &[(Case, Times)]) -> String {
    let end = TOP + GROUP * cases.len() as f64;
    let mut svg = Svg::new(WIDTH, end + BOTTOM);
    svg.text([WIDTH / 2.0, 28.0], Anchor::Middle, 18, "Speed relative to the odometer, one call for each contraction");
    legend(&mut svg, LEFT, &[(TILED, "tiled engine"), (PLAIN, "plain engine"), (NEST, "loop nest for this shape")]);
    let most = cases.iter().flat_map(|(_, times)| speeds(times)).fold(1.0, f64::max).ceil();
    axis(&mut svg, most, end);
    for (n, (case, times)) in cases.iter().enumerate() {
        group(&mut svg, most, TOP + GROUP * n as f64, case.name, times);
    }
    let one = place(1.0, most);
    svg.line([one, TOP], [one, end], INK, 1.5);
    svg.finish()
}

/// Tiled, plain, loop nest.
fn speeds(times: &Times) -> [f64; 3] {
    [times.tiled, times.plain, times.nest].map(|time| ratio(times.odometer, time))
}

fn place(speed: f64, most: f64) -> f64 {
    LEFT + (WIDTH - LEFT - RIGHT) * speed / most
}

/// Grid lines with their numbers, at most ten, and the label below.
fn axis(svg: &mut Svg, most: f64, end: f64) {
    let step = [1.0, 2.0, 5.0, 10.0, 20.0].into_iter().find(|step| most / step <= 10.0).unwrap_or(50.0);
    for n in 0..=(most / step) as u32 {
        let x = place(f64::from(n) * step, most);
        svg.line([x, TOP], [x, end], GRID, 1.0);
        svg.text([x, end + 18.0], Anchor::Middle, 13, &(f64::from(n) * step).to_string());
    }
    let middle = (LEFT + WIDTH - RIGHT) / 2.0;
    svg.text([middle, end + 44.0], Anchor::Middle, 14, "odometer time / time (the odometer is 1, longer is faster)");
}

fn group(svg: &mut Svg, most: f64, top: f64, name: &str, times: &Times) {
    svg.text([LEFT - 12.0, top + GROUP / 2.0 + 5.0], Anchor::End, 13, name);
    for (n, (speed, colour)) in speeds(times).into_iter().zip([TILED, PLAIN, NEST]).enumerate() {
        let y = top + 9.0 + BAR * n as f64;
        svg.bar([LEFT, y], [place(speed, most) - LEFT, BAR - 2.0], colour);
        svg.text([place(speed, most) + 5.0, y + BAR - 4.0], Anchor::Start, 12, &digits(speed));
    }
}
