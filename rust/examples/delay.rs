//! Two detectors hear one bat. By how many samples is the recording X later than Y? Lags up to 12 are tried.

use nezgrak::{delay, Delay, Refusal};

pub const X: [i32; 32] = [
    -3, -5, -2, 3, -5, -6, -7, -2, 7, 5, 2, 6, 33, -70, 60, 57, -114, -46, 86, 80, 8, -25, -14, 6, 1, -6, -5, 8, 5, -3,
    2, -4,
];
pub const Y: [i32; 32] = [
    2, -4, 4, -7, -6, 40, -118, 91, 104, -187, -82, 147, 137, 5, -60, -27, -6, 5, -7, -5, -1, -7, 4, -7, -1, -7, -4, 1,
    5, -4, -5, 1,
];
pub const GREATEST_LAG: u64 = 12;

fn main() -> Result<(), Refusal> {
    let Delay { lag, score } = delay(&X, &Y, GREATEST_LAG)?;
    println!("X is {lag} samples later than Y: score {score}");
    Ok(())
}
