//! What a pair of recordings has, noted so that a run shows what it tried.

use super::delay::{is_outside, Answer, Recordings};
use super::seen::Seen;

pub fn note(seen: &mut Seen, r: &Recordings, answer: Answer) {
    match answer {
        Ok((lag, score)) => note_accepted(seen, r, lag, score),
        Err(31) => note_misfits(seen, r),
        Err(_) => note_outside(seen, r),
    }
}

fn note_accepted(seen: &mut Seen, r: &Recordings, lag: u64, score: i64) {
    let greatest = r.scores().iter().filter(|other| **other == i128::from(score)).count();
    let lags = r.greatest_lag;
    seen.note("accepted: a greatest lag of 0", lags == 0);
    seen.note("accepted: a greatest lag of 64", lags == 64);
    seen.note("accepted: one term", r.terms() == 1);
    seen.note("accepted: 256 terms", r.terms() == 256);
    seen.note("accepted: lag 0 of several", lag == 0 && lags > 0);
    seen.note("accepted: the greatest lag", lag == lags && lags > 0);
    seen.note("accepted: a lag between", 0 < lag && lag < lags);
    seen.note("accepted: a tie of all lags", greatest as u64 == lags + 1 && lags > 0);
    seen.note("accepted: a tie of some lags, not with lag 0", greatest > 1 && lag > 0);
    seen.note("accepted: a negative score", score < 0);
    seen.note("accepted: a score of 0", score == 0);
    seen.note("accepted: a score of 1,073,741,824", score == 1 << 30);
    for (name, samples) in [("X", &r.x), ("Y", &r.y)] {
        seen.note(&format!("accepted: a sample -2,048 in {name}"), samples.contains(&-2_048));
        seen.note(&format!("accepted: a sample 2,047 in {name}"), samples.contains(&2_047));
    }
}

fn note_misfits(seen: &mut Seen, r: &Recordings) {
    let misfits = r.misfits();
    let one = misfits.iter().filter(|(_, refuses)| *refuses).count() == 1;
    for (name, refuses) in misfits {
        seen.note(&format!("refused by 31: {name}, alone"), refuses && one);
    }
    let outside = r.x.iter().chain(&r.y).any(|sample| is_outside(*sample));
    seen.note("refused by 31: a sample that 32 refuses too", outside);
}

fn note_outside(seen: &mut Seen, r: &Recordings) {
    let outside = |samples: &[i32]| samples.iter().any(|sample| is_outside(*sample));
    let (used, unused) = r.y.split_at(r.terms() as usize);
    let found = [outside(&r.x), outside(used), outside(unused)];
    seen.note("refused by 32: a sample of X", found == [true, false, false]);
    seen.note("refused by 32: a sample of Y that scores use", found == [false, true, false]);
    seen.note("refused by 32: a sample of Y that no score uses", found == [false, false, true]);
}
