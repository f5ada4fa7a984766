//! Two recordings, and below them the score of each lag.

use super::svg::{legend, Anchor, Svg, GRID, INK, NEST, PLAIN, TILED};
use super::text::count;
use nezgrak::{delay, Delay};
use std::ops::Range;

const WIDTH: f64 = 840.0;
const HEIGHT: f64 = 580.0;
const LEFT: f64 = 90.0;
const RIGHT: f64 = 30.0;
/// Where the recordings and the scores stand: top and bottom.
const OF_Y: [f64; 2] = [80.0, 165.0];
const OF_X: [f64; 2] = [180.0, 265.0];
const OF_SCORES: [f64; 2] = [335.0, 525.0];
/// The samples that the greatest score does not use, and the other scores.
const PALE: &str = "#bbbbbb";

/// The values that a panel goes from and to, and where it stands.
struct Panel {
    values: [f64; 2],
    place: [f64; 2],
}

impl Panel {
    /// From somewhat below the values, and below 0, to somewhat above.
    fn of(values: &[i64], place: [f64; 2]) -> Self {
        let ends = values.iter().fold([0, 0], |[least, most], value| [least.min(*value), most.max(*value)]);
        Self { values: ends.map(|end| 1.08 * end as f64), place }
    }

    fn y(&self, value: i64) -> f64 {
        let ([top, bottom], [from, to]) = (self.place, self.values);
        bottom - (bottom - top) * (value as f64 - from) / (to - from)
    }

    /// A bar for each value, from 0 to it.
    fn bars(&self, svg: &mut Svg, values: &[i64], colour: impl Fn(usize) -> &'static str) {
        let wide = (WIDTH - LEFT - RIGHT) / values.len() as f64;
        for (n, value) in values.iter().enumerate() {
            let (from, to) = (self.y(0), self.y(*value));
            svg.bar([middle(n, values.len()) - 0.35 * wide, from.min(to)], [0.7 * wide, (from - to).abs()], colour(n));
        }
        svg.line([LEFT, self.y(0)], [WIDTH - RIGHT, self.y(0)], INK, 1.0);
    }

    /// Lines across at round values, at most so many steps in the whole range, with their numbers, and the name beside.
    fn axis(&self, svg: &mut Svg, most: f64, name: &str) {
        let [from, to] = self.values;
        let mut steps = (0..9).flat_map(|power| [1, 2, 5].map(|digit| digit * 10i64.pow(power)));
        let step = steps.find(|step| (to - from) / *step as f64 <= most).expect("a step for any score");
        for n in (from / step as f64).ceil() as i64..=(to / step as f64).floor() as i64 {
            let y = self.y(n * step);
            svg.line([LEFT, y], [WIDTH - RIGHT, y], GRID, 1.0);
            svg.text([LEFT - 8.0, y + 4.0], Anchor::End, 13, &shown(n * step));
        }
        svg.text_upwards([26.0, (self.place[0] + self.place[1]) / 2.0], 14, name);
    }

    /// Every so many columns its number, below the panel, and their name.
    fn columns(&self, svg: &mut Svg, columns: usize, step: usize, name: &str) {
        let bottom = self.place[1];
        for n in (0..columns).step_by(step) {
            svg.text([middle(n, columns), bottom + 20.0], Anchor::Middle, 13, &n.to_string());
        }
        svg.text([middle(0, 1), bottom + 41.0], Anchor::Middle, 14, name);
    }
}

fn shown(number: i64) -> String {
    let sign = if number < 0 { "-" } else { "" };
    format!("{sign}{}", count(number.unsigned_abs()))
}

/// The middle of column n of so many.
fn middle(n: usize, columns: usize) -> f64 {
    LEFT + (WIDTH - LEFT - RIGHT) * (n as f64 + 0.5) / columns as f64
}

/// The score of each lag, by calls that try lag 0 alone, of X from that lag on.
pub fn scores(x: &[i32], y: &[i32], greatest_lag: u64) -> Vec<i64> {
    let (lags, terms) = (greatest_lag as usize, x.len() - greatest_lag as usize);
    let score = |lag: usize| delay(&x[lag..][..terms], &y[..terms], 0).expect("accepted recordings").score;
    (0..=lags).map(score).collect()
}

pub fn plot(x: &[i32], y: &[i32], greatest_lag: u64) -> String {
    let Delay { lag, .. } = delay(x, y, greatest_lag).expect("accepted recordings");
    let (lag, terms) = (lag as usize, x.len() - greatest_lag as usize);
    let mut svg = Svg::new(WIDTH, HEIGHT);
    let title = format!("The score of each lag: X is {lag} samples later than Y");
    svg.text([WIDTH / 2.0, 28.0], Anchor::Middle, 18, &title);
    let used = [(NEST, "samples of Y"), (PLAIN, "samples of X"), (TILED, "greatest score")];
    legend(&mut svg, LEFT, &[&used[..], &[(PALE, "scores and samples beside it")]].concat());
    recordings(&mut svg, x, y, lag, terms);
    score_panel(&mut svg, &scores(x, y, greatest_lag), lag);
    svg.finish()
}

/// Both on one scale. Those samples have a colour that the score of this lag uses.
fn recordings(svg: &mut Svg, x: &[i32], y: &[i32], lag: usize, terms: usize) {
    let [x, y] = [x, y].map(|samples| samples.iter().map(|sample| i64::from(*sample)).collect::<Vec<_>>());
    let [of_y, of_x] = [OF_Y, OF_X].map(|place| Panel::of(&[&x[..], &y].concat(), place));
    let colour = |used: Range<usize>, colour| move |n| if used.contains(&n) { colour } else { PALE };
    of_y.axis(svg, 4.0, "Y");
    of_y.bars(svg, &y, colour(0..terms, NEST));
    of_x.axis(svg, 4.0, "X");
    of_x.bars(svg, &x, colour(lag..lag + terms, PLAIN));
    of_x.columns(svg, x.len(), 4, "sample");
}

fn score_panel(svg: &mut Svg, scores: &[i64], lag: usize) {
    let panel = Panel::of(scores, OF_SCORES);
    panel.axis(svg, 8.0, "score");
    panel.bars(svg, scores, |n| if n == lag { TILED } else { PALE });
    let above = [middle(lag, scores.len()), panel.y(scores[lag].max(0)) - 6.0];
    svg.text(above, Anchor::Middle, 13, &shown(scores[lag]));
    panel.columns(svg, scores.len(), 1, "lag");
}
