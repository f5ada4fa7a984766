//! The delay between two recordings by direct double loops. They ask no question: the recordings are accepted ones. A score
//! of accepted samples fits 32 bits.

/// How many lags `lags_together` has in one pass: as many sums as registers hold.
const TOGETHER: usize = 16;

/// What takes X, Y and the greatest lag, and gives the lag and its score.
pub type Direct = fn(&[i32], &[i32], usize) -> (u64, i64);

/// The smallest lag with the greatest score.
fn greatest(scores: &[i32]) -> (u64, i64) {
    let better = |best: usize, lag: usize| if scores[lag] > scores[best] { lag } else { best };
    let lag = (1..scores.len()).fold(0, better);
    (lag as u64, i64::from(scores[lag]))
}

fn score(x: &[i32], y: &[i32]) -> i32 {
    x.iter().zip(y).map(|(x, y)| x * y).sum()
}

/// One lag after another, each a sum of products along both recordings.
#[inline(never)]
pub fn lag_by_lag(x: &[i32], y: &[i32], greatest_lag: usize) -> (u64, i64) {
    let (terms, mut scores) = (x.len() - greatest_lag, [0; 65]);
    for (lag, sum) in scores[..=greatest_lag].iter_mut().enumerate() {
        *sum = score(&x[lag..][..terms], &y[..terms]);
    }
    greatest(&scores[..=greatest_lag])
}

/// One sample of Y after another, each added to the sums of all lags.
#[inline(never)]
pub fn sample_by_sample(x: &[i32], y: &[i32], greatest_lag: usize) -> (u64, i64) {
    let (terms, mut sums) = (x.len() - greatest_lag, [0; 65]);
    let scores = &mut sums[..=greatest_lag];
    for (t, y) in y[..terms].iter().enumerate() {
        scores.iter_mut().zip(&x[t..]).for_each(|(score, x)| *score += x * y);
    }
    greatest(scores)
}

/// The sums of 16 lags held while Y runs, and the lags that are left one after another.
#[inline(never)]
pub fn lags_together(x: &[i32], y: &[i32], greatest_lag: usize) -> (u64, i64) {
    let (terms, mut scores) = (x.len() - greatest_lag, [0; 65]);
    let (mut blocks, y) = (scores[..=greatest_lag].chunks_exact_mut(TOGETHER), &y[..terms]);
    let mut lag = 0;
    for block in &mut blocks {
        let mut sums = [0; TOGETHER];
        for (xs, y) in x[lag..].windows(TOGETHER).zip(y) {
            sums.iter_mut().zip(xs).for_each(|(sum, x)| *sum += x * y);
        }
        block.copy_from_slice(&sums);
        lag += TOGETHER;
    }
    for (more, sum) in blocks.into_remainder().iter_mut().enumerate() {
        *sum = score(&x[lag + more..][..terms], y);
    }
    greatest(&scores[..=greatest_lag])
}

/// Lag by lag, with both recordings first copied as 16 bits a sample, for which the processor has an instruction that adds
/// two products at once.
#[inline(never)]
pub fn narrowed(x: &[i32], y: &[i32], greatest_lag: usize) -> (u64, i64) {
    let (terms, mut scores) = (x.len() - greatest_lag, [0; 65]);
    let (mut xs, mut ys) = ([0i16; 320], [0i16; 256]);
    xs.iter_mut().zip(x).for_each(|(narrow, x)| *narrow = *x as i16);
    ys.iter_mut().zip(&y[..terms]).for_each(|(narrow, y)| *narrow = *y as i16);
    for (lag, sum) in scores[..=greatest_lag].iter_mut().enumerate() {
        let products = xs[lag..][..terms].iter().zip(&ys[..terms]).map(|(x, y)| i32::from(*x) * i32::from(*y));
        *sum = products.sum();
    }
    greatest(&scores[..=greatest_lag])
}
