//! Lines: nanoseconds for a multiply-add against multiply-adds, both on log axes.

use super::svg::{legend, Anchor, Svg, GRID, INK, NEST, ODOMETER, PLAIN, TILED};
use crate::measured::contest::{Case, Times};

const WIDTH: f64 = 840.0;
const HEIGHT: f64 = 480.0;
const LEFT: f64 = 80.0;
const RIGHT: f64 = 40.0;
const TOP: f64 = 80.0;
const BOTTOM: f64 = 65.0;
const END: f64 = HEIGHT - BOTTOM;
const SERIES: [(&str, &str); 4] =
    [(ODOMETER, "odometer"), (PLAIN, "plain engine"), (TILED, "tiled engine"), (NEST, "loop nest")];

/// The numbers that the axes begin and end with.
struct Scale {
    x: [f64; 2],
    y: [f64; 2],
}

impl Scale {
    fn place(&self, x: f64, y: f64) -> [f64; 2] {
        let part = |value: f64, [from, to]: [f64; 2]| (value / from).ln() / (to / from).ln();
        [LEFT + (WIDTH - LEFT - RIGHT) * part(x, self.x), END - (END - TOP) * part(y, self.y)]
    }
}

pub fn plot(cases: &[(Case, Times)]) -> String {
    let mut svg = Svg::new(WIDTH, HEIGHT);
    svg.text([WIDTH / 2.0, 28.0], Anchor::Middle, 18, "Time for a multiply-add, products of square matrices");
    legend(&mut svg, LEFT, &SERIES);
    let lines = series(cases);
    let times = || lines.iter().flatten().map(|point| point[1]);
    let [least, most] = [times().fold(f64::MAX, f64::min), times().fold(0.0, f64::max)];
    let marks = marks(least, most);
    let scale = Scale { x: [6e4, 1.6e9], y: [marks[0], marks[marks.len() - 1]] };
    axes(&mut svg, &scale, &marks);
    for (line, (colour, _)) in lines.iter().zip(SERIES) {
        curve(&mut svg, &scale, line, colour);
    }
    svg.finish()
}

/// Multiply-adds and nanoseconds for each, in the order of the series.
fn series(cases: &[(Case, Times)]) -> [Vec<[f64; 2]>; 4] {
    let time = |times: &Times, n: usize| [times.odometer, times.plain, times.tiled, times.nest][n];
    [0, 1, 2, 3].map(|n| {
        let point = |(case, times): &(Case, Times)| [case.multiply_adds() as f64, case.nanos_each(time(times, n))];
        cases.iter().map(point).collect()
    })
}

/// 0.1, 0.2, 0.5, 1, .. around the times.
fn marks(least: f64, most: f64) -> Vec<f64> {
    let all: Vec<f64> = (-3..4).flat_map(|n| [1.0, 2.0, 5.0].map(|mark| mark * 10f64.powi(n))).collect();
    let from = all.iter().rposition(|mark| *mark <= least).unwrap_or(0);
    let to = all.iter().position(|mark| *mark >= most).unwrap_or(all.len() - 1);
    all[from..=to].to_vec()
}

fn axes(svg: &mut Svg, scale: &Scale, marks: &[f64]) {
    for (power, name) in (5..10).zip(["10⁵", "10⁶", "10⁷", "10⁸", "10⁹"]) {
        let [x, _] = scale.place(10f64.powi(power), scale.y[0]);
        svg.line([x, TOP], [x, END], GRID, 1.0);
        svg.text([x, END + 20.0], Anchor::Middle, 13, name);
    }
    for mark in marks {
        let [_, y] = scale.place(scale.x[0], *mark);
        svg.line([LEFT, y], [WIDTH - RIGHT, y], GRID, 1.0);
        svg.text([LEFT - 8.0, y + 4.0], Anchor::End, 13, &mark.to_string());
    }
    svg.line([LEFT, TOP], [LEFT, END], INK, 1.0);
    svg.line([LEFT, END], [WIDTH - RIGHT, END], INK, 1.0);
    svg.text([(LEFT + WIDTH - RIGHT) / 2.0, HEIGHT - 18.0], Anchor::Middle, 14, "multiply-adds");
    svg.text_upwards([24.0, (TOP + END) / 2.0], 14, "ns for a multiply-add");
}

fn curve(svg: &mut Svg, scale: &Scale, points: &[[f64; 2]], colour: &str) {
    let places: Vec<[f64; 2]> = points.iter().map(|[x, y]| scale.place(*x, *y)).collect();
    places.windows(2).for_each(|pair| svg.line(pair[0], pair[1], colour, 2.5));
    places.iter().for_each(|place| svg.dot(*place, colour));
}
