//! Job files that end too early, cut at every byte.

use crate::common::broken::{sound_request, sound_request_with_c};
use crate::common::case::{Case, Tensor};
use crate::common::flaws::Flaw;
use crate::common::job::Job;
use crate::common::job_files::{flawed, Files, WITHOUT_C, WITH_C};
use crate::common::job_model::refused;
use crate::common::program::{check, check_all, prints};

/// A file cut before each of its bytes.
fn cut(file: &[u8]) -> Vec<Vec<u8>> {
    (0..file.len()).map(|length| file[..length].to_vec()).collect()
}

/// Each part is refused by 21, and the whole file is not.
fn every_part_is_refused(job: &Job) {
    let file = job.file();
    let texts = check_all(&cut(&file));
    assert!(texts.len() >= 63, "the records alone have 63 bytes");
    assert!(texts.iter().all(|text| *text == refused(21)));
    assert!(check(&file) != refused(21));
}

/// The job with all its words written as bytes, but for those of C.
fn in_bytes(mut job: Job) -> Job {
    (0..3).for_each(|which| job.write_as_bytes(which));
    job
}

#[test]
fn with_words() {
    every_part_is_refused(&Job::example());
}

#[test]
fn with_bytes() {
    every_part_is_refused(&in_bytes(Job::example()));
}

#[test]
fn with_words_and_bytes() {
    for request in [sound_request(), sound_request_with_c()] {
        let mut job = Job::of(&request);
        job.write_as_bytes(1);
        every_part_is_refused(&job);
    }
}

/// Before C's records, inside them and after them.
#[test]
fn with_c() {
    every_part_is_refused(&Job::example_with_c());
    every_part_is_refused(&in_bytes(Job::example_with_c()));
}

fn job(a: Tensor, b: Tensor, d: Tensor) -> Job {
    let case = Case { a, b, c: None, d, alpha: 2, beta: 1 };
    Job { case, as_bytes: [false; 3], sizes: [1, 1, 1], done: 0, budget: 1 }
}

#[test]
fn with_rank_0() {
    let mut scalars = job(Tensor::scalar(3), Tensor::scalar(5), Tensor::scalar(7));
    every_part_is_refused(&scalars);
    every_part_is_refused(&in_bytes(scalars.clone()));
    scalars.case.c = Some(Tensor::scalar(9));
    every_part_is_refused(&scalars);
}

#[test]
fn with_rank_8() {
    let tensor = |letters| Tensor::new(letters, &[1; 8], &[3; 8], 1, &[6, 7]);
    let mut job = job(tensor("abcdefgh"), tensor("hgfedcba"), tensor("AbCdEfGh"));
    every_part_is_refused(&job);
    every_part_is_refused(&in_bytes(job.clone()));
    job.case.c = Some(tensor("hGfEdCbA"));
    every_part_is_refused(&job);
}

/// Slices of no words. When the file is whole question 8 refuses them, but not with an extent 0.
#[test]
fn with_empty_tensors() {
    for (extent, whole) in [(1, "refused 8\n"), (0, "tiles 0 of 0\n")] {
        let tensor = |letters| Tensor::new(letters, &[extent], &[1], 0, &[]);
        let mut job = job(tensor("i"), tensor("j"), tensor("k"));
        every_part_is_refused(&job);
        every_part_is_refused(&in_bytes(job.clone()));
        prints(&job.file(), whole);
        job.case.c = Some(tensor("k"));
        every_part_is_refused(&job);
        prints(&job.file(), whole);
    }
    let mut scalars = self::job(Tensor::scalar(3), Tensor::scalar(5), Tensor::scalar(7));
    (0..3).for_each(|which| scalars.case.tensor_mut(which).words.clear());
    every_part_is_refused(&scalars);
}

/// Of a file with a flaw, the parts before it are refused by 21 and those that show it by its own number. Only a flaw
/// that follows the last record has a whole job before it.
fn before_and_after_each_flaw(files: &Files) {
    let is_first = |flaws: &[Flaw], n: usize| {
        let alike = |other: &Flaw| (other.record, other.number) == (flaws[n].record, flaws[n].number);
        flaws[n].number != 21 && !flaws[..n].iter().any(alike)
    };
    let flaws = files.flaws();
    let flaws: Vec<&Flaw> = (0..flaws.len()).filter(|&n| is_first(&flaws, n)).map(|n| &flaws[n]).collect();
    assert_eq!(flaws.len(), files.records + 2 * (files.records / 2) + 1);
    for flaw in flaws {
        let [sound, _] = files.sound();
        let mut texts = check_all(&cut(&[flawed(sound, &[flaw]), vec![0]].concat()));
        texts.dedup();
        let whole: Vec<String> = texts.iter().filter(|text| text.starts_with("tiles ")).cloned().collect();
        assert_eq!(whole.len(), usize::from(flaw.number == 22));
        assert_eq!(texts, [vec![refused(21)], whole, vec![refused(flaw.number)]].concat());
    }
}

#[test]
fn before_and_after_a_flaw() {
    before_and_after_each_flaw(&WITHOUT_C);
}

#[test]
fn before_and_after_a_flaw_with_c() {
    before_and_after_each_flaw(&WITH_C);
}
