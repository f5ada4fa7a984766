//! Random jobs.

use super::case::Case;
use super::groups::{Cut, Groups};
use super::job::Job;
use super::make::{accepted, accepted_with_c, Kind};
use super::rng::Rng;
use nezgrak::TileSizes;

/// A job that is accepted, with C or without.
pub fn accepted_job(rng: &mut Rng, kind: &Kind) -> Job {
    let case = fitting(rng, kind);
    job_of(rng, case)
}

/// A contraction whose slices fit into a job file.
fn fitting(rng: &mut Rng, kind: &Kind) -> Case {
    loop {
        let case = accepted_case(rng, kind);
        if case.tensors().iter().all(|t| t.words.len() <= 4_096) {
            return case;
        }
    }
}

/// A contraction that passes every question, one in three with C.
pub fn accepted_case(rng: &mut Rng, kind: &Kind) -> Case {
    match rng.once_in(3) {
        true => accepted_with_c(rng, kind),
        false => accepted(rng, kind),
    }
}

/// Mostly small, so that there are several tiles, and up to the limits.
fn size(rng: &mut Rng, limit: u16) -> u16 {
    let any = 1 + rng.below(usize::from(limit)) as u16;
    rng.pick(&[1, 1, 2, 2, 3, 4, 5, 8, any, limit])
}

/// A contraction, tile by tile, with some of its words written as bytes.
pub fn job_of(rng: &mut Rng, case: Case) -> Job {
    let sizes = [size(rng, 64), size(rng, 64), size(rng, 128)];
    let [rows, cols, depth] = sizes.map(u32::from);
    let total = Cut::of(&Groups::of(&case), TileSizes { rows, cols, depth }).total() as u32;
    let mut some = || rng.below(total as usize + 1) as u32;
    let (any, most, few) = (some(), some(), some() / 8);
    let done = rng.pick(&[0, 0, 0, any, any, total]);
    let left = total - done;
    let budget = rng.pick(&[0, 1, 2, few, few, most, most, left.saturating_sub(1), left, left + 1, u32::MAX]);
    let mut job = Job { case, as_bytes: [false; 3], sizes, done, budget };
    for which in 0..3 {
        if rng.once_in(4) {
            job.write_as_bytes(which);
        }
    }
    job
}
