//! The delay between two recordings: the model, and the call under guard, alone and against the model.
//!
//! The model follows the rule word by word, in whole numbers of 128 bits: every score first, then the greatest of them, then
//! the first lag that has it.

use super::ffi::nezgrak_delay;
use super::guard::Guarded;

/// What stands in the two answers before a call: a word that is set by half, or set where a call is refused, is seen.
const LAG_BEFORE: u64 = 0x8765_4321_9abc_def0;
const SCORE_BEFORE: i64 = -0x0123_4567_89ab_cdef;

/// What is handed to the call.
#[derive(Clone, Debug)]
pub struct Recordings {
    pub x: Vec<i32>,
    pub y: Vec<i32>,
    pub greatest_lag: u64,
}

/// The lag and its score, or the number that refused.
pub type Answer = Result<(u64, i64), u32>;

impl Recordings {
    pub fn new(x: &[i32], y: &[i32], greatest_lag: u64) -> Self {
        Self { x: x.to_vec(), y: y.to_vec(), greatest_lag }
    }

    /// The length of X less the greatest lag.
    pub fn terms(&self) -> i128 {
        self.x.len() as i128 - i128::from(self.greatest_lag)
    }

    /// The parts of question 31, each of which refuses.
    pub fn misfits(&self) -> [(&'static str, bool); 4] {
        [
            ("lengths that differ", self.x.len() != self.y.len()),
            ("greatest lag above 64", self.greatest_lag > 64),
            ("length less the greatest lag above 256", self.terms() > 256),
            ("length less the greatest lag below 1", self.terms() < 1),
        ]
    }

    /// The score of each lag. Asked only of what question 31 passes.
    pub fn scores(&self) -> Vec<i128> {
        let terms = 0..self.terms() as usize;
        let term = |lag: usize, t: usize| i128::from(self.x[t + lag]) * i128::from(self.y[t]);
        (0..=self.greatest_lag as usize).map(|lag| terms.clone().map(|t| term(lag, t)).sum()).collect()
    }

    pub fn expected(&self) -> Answer {
        if self.misfits().iter().any(|(_, refuses)| *refuses) {
            return Err(31);
        }
        if self.x.iter().chain(&self.y).any(|sample| is_outside(*sample)) {
            return Err(32);
        }
        let scores = self.scores();
        let greatest = scores.iter().max().expect("at least one lag");
        let lag = scores.iter().position(|score| score == greatest).expect("the lag of the greatest");
        Ok((lag as u64, i64::try_from(*greatest).expect("a score of 64 bits")))
    }
}

pub fn is_outside(sample: i32) -> bool {
    !(-2_048..=2_047).contains(&sample)
}

/// The safe call.
pub fn run_safe(r: &Recordings) -> Answer {
    let answer = nezgrak::delay(&r.x, &r.y, r.greatest_lag);
    answer.map(|found| (found.lag, found.score)).map_err(|refusal| refusal.number())
}

/// The call by its pointers and lengths, on recordings that start so many words later. Fails where it changed a sample, a
/// guard word or, being refused, an answer.
pub fn run_flat(r: &Recordings, [of_x, of_y]: [usize; 2]) -> Answer {
    let (x, y) = (Guarded::shifted(&r.x, of_x), Guarded::shifted(&r.y, of_y));
    let (mut lag, mut score) = (Guarded::around(&[LAG_BEFORE]), Guarded::around(&[SCORE_BEFORE]));
    // SAFETY: each pointer and length are those of one slice, the answers stand in slices of one value each, and no two
    // of the four share a word.
    let number = unsafe {
        nezgrak_delay(
            x.part().as_ptr().cast(),
            r.x.len(),
            y.part().as_ptr().cast(),
            r.y.len(),
            r.greatest_lag,
            lag.part_mut().as_mut_ptr(),
            score.part_mut().as_mut_ptr(),
        )
    };
    assert!(x.part() == r.x && y.part() == r.y, "a sample was changed: {r:?}");
    let intact = [x.intact(), y.intact(), lag.intact(), score.intact()];
    assert_eq!(intact, [true; 4], "a word beside X, Y, the lag or the score was changed: {r:?}");
    let answers = (lag.part()[0], score.part()[0]);
    if number == 0 {
        return Ok(answers);
    }
    assert_eq!(answers, (LAG_BEFORE, SCORE_BEFORE), "a refused call set an answer: {r:?}");
    Err(number)
}

/// Calls the engine in both ways, compares with the model, and gives what was found.
pub fn check(r: &Recordings) -> Answer {
    let (expected, found) = (r.expected(), run_flat(r, [0, 0]));
    assert_eq!(found, expected, "the delay of {r:?}");
    assert_eq!(run_safe(r), expected, "the safe call on {r:?}");
    found
}

/// The engine, and the model, have to find this lag with this score.
pub fn gives(x: &[i32], y: &[i32], greatest_lag: u64, lag: u64, score: i64) {
    let recordings = Recordings::new(x, y, greatest_lag);
    assert_eq!(check(&recordings), Ok((lag, score)), "the delay of {recordings:?}");
}

/// The engine, and the model, have to refuse by this number.
pub fn refuses(x: &[i32], y: &[i32], greatest_lag: u64, number: u32) {
    let recordings = Recordings::new(x, y, greatest_lag);
    assert_eq!(check(&recordings), Err(number), "the answer to {recordings:?}");
}
