//! Document 01's example for the job program, from every count of tiles done and with every budget, and other small
//! jobs whose answers are written out.

use crate::common::case::{Case, Tensor};
use crate::common::job::Job;
use crate::common::program::{check, prints};

const TOTAL: u32 = 8;

fn example(done: u32, budget: u32) -> Job {
    Job { done, budget, ..Job::example() }
}

#[test]
fn three_tiles() {
    prints(&example(0, 3).file(), "tiles 3 of 8\n211 f\n402 p\n300 o\n400 o\n");
}

#[test]
fn eight_tiles() {
    prints(&example(0, 8).file(), "tiles 8 of 8\n211 f\n414 f\n608 f\n810 f\n");
}

/// From each count on, the tiles run on the words as they are given.
#[test]
fn every_count_and_budget() {
    for done in 0..=TOTAL {
        for budget in (0..=TOTAL + 1).chain([1 << 31, u32::MAX - TOTAL, u32::MAX]) {
            let text = check(&example(done, budget).file());
            let after = TOTAL.min(done.saturating_add(budget));
            assert!(text.starts_with(&format!("tiles {after} of {TOTAL}\n")), "{text}");
        }
    }
}

#[test]
fn counts_over_the_total() {
    for done in [TOTAL + 1, TOTAL + 2, 256 + TOTAL, 1 << 31, u32::MAX - TOTAL, u32::MAX] {
        for budget in [0, 1, TOTAL, u32::MAX] {
            prints(&example(done, budget).file(), "refused 12\n");
        }
    }
}

/// Where a job's D has the words that another's answer shows, it goes on from there.
#[test]
fn one_job_after_another() {
    for first in 0..=TOTAL {
        let text = check(&example(0, first).file());
        let mut rest = example(first, TOTAL - first);
        rest.case.d.words = text.lines().skip(1).map(word_of).collect();
        prints(&rest.file(), "tiles 8 of 8\n211 f\n414 f\n608 f\n810 f\n");
    }
}

fn word_of(line: &str) -> u32 {
    line.split(' ').next().and_then(|word| word.parse().ok()).expect("a word")
}

/// A × B in one tile; alpha 1, beta 0.
fn one_tile(a: Tensor, b: Tensor, d: Tensor) -> Job {
    let case = Case { a, b, c: None, d, alpha: 1, beta: 0 };
    Job { case, as_bytes: [false; 3], sizes: [64, 64, 128], done: 0, budget: 1 }
}

fn scalars(a: u32, b: u32, d: u32) -> Job {
    one_tile(Tensor::scalar(a), Tensor::scalar(b), Tensor::scalar(d))
}

#[test]
fn no_letters() {
    let mut job = scalars(3, 5, 7);
    (job.case.alpha, job.case.beta) = (2, 1);
    prints(&job.file(), "tiles 1 of 1\n37 f\n");
    prints(&Job { budget: 0, ..job.clone() }.file(), "tiles 0 of 1\n7 o\n");
    prints(&Job { done: 1, ..job }.file(), "tiles 1 of 1\n7 f\n");
}

#[test]
fn words_wrap_and_are_unsigned() {
    prints(&scalars(u32::MAX, u32::MAX, 9).file(), "tiles 1 of 1\n1 f\n");
    prints(&scalars(u32::MAX, 1, 9).file(), "tiles 1 of 1\n4294967295 f\n");
    prints(&scalars(0, 1, 9).file(), "tiles 1 of 1\n0 f\n");
}

/// A byte is a word from 0 to 255, in any of the tensors.
#[test]
fn byte_words_are_unsigned() {
    for ways in 0..8 {
        let mut job = scalars(255, 254, 253);
        job.case.beta = 1;
        (0..3).filter(|which| ways >> which & 1 == 1).for_each(|which| job.write_as_bytes(which));
        prints(&job.file(), "tiles 1 of 1\n65023 f\n");
    }
}

/// The diagonal's words, and the others between them.
#[test]
fn a_repeated_letter_of_d() {
    let d = Tensor::new("ii", &[2, 2], &[1, 2], 0, &[50, 60, 70, 80]);
    let mut job = one_tile(Tensor::scalar(2), Tensor::scalar(3), d);
    prints(&job.file(), "tiles 1 of 1\n6 f\n60 -\n70 -\n6 f\n");
    job.sizes = [1, 1, 1];
    prints(&job.file(), "tiles 1 of 2\n6 f\n60 -\n70 -\n80 o\n");
}

/// Words before, between and after those of a layout that counts down.
#[test]
fn words_outside_the_layout() {
    let d = Tensor::new("i", &[3], &[-2], 5, &[1, 2, 3, 4, 5, 6, 7]);
    let mut job = one_tile(Tensor::scalar(5), Tensor::scalar(20), d);
    job.sizes = [2, 1, 1];
    prints(&job.file(), "tiles 1 of 2\n1 -\n2 o\n3 -\n100 f\n5 -\n100 f\n7 -\n");
}

#[test]
fn words_of_every_length() {
    let mut words = vec![0, u32::MAX];
    words.extend((0..10).map(|n| 10_u32.pow(n)).flat_map(|power| [power - 1, power, power + 1]));
    let lines: String = words.iter().map(|word| format!("{word} o\n")).collect();
    let d = Tensor::new("i", &[words.len() as u32], &[1], 0, &words);
    let job = Job { budget: 0, ..one_tile(Tensor::scalar(1), Tensor::scalar(1), d) };
    prints(&job.file(), &format!("tiles 0 of 1\n{lines}"));
}
