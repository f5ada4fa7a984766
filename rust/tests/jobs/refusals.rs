//! The questions that a job can fail, each alone and every two together. A job file gives one rank for letters, extents
//! and strides, the program's work slice is long enough for every tile, and no state is asked, so 2, 11 and 13 can't
//! occur. 30, where C is named, comes between 6 and 7.

use crate::common::job::Job;
use crate::common::job_model::refused;
use crate::common::program::{check, prints, refuse};
use crate::common::refusing::{Form, WITHOUT_C, WITH_C};
use crate::common::request::Request;

const NUMBERS: [u32; 10] = [1, 3, 4, 5, 6, 7, 8, 9, 10, 12];
const NUMBERS_WITH_C: [u32; 11] = [1, 3, 4, 5, 6, 30, 7, 8, 9, 10, 12];

/// The second and the third of four tiles run, on the words as they are given.
#[test]
fn the_sound_ones_are_accepted() {
    for form in [WITHOUT_C, WITH_C] {
        let job = Job::of(&form.broken(&[]));
        let text = check(&job.file());
        assert!(text.starts_with("tiles 3 of 4\n"), "{text}");
        let words: Vec<String> = job.case.d.words.iter().map(u32::to_string).collect();
        assert!(text.lines().skip(1).zip(&words).all(|(line, word)| line.split(' ').next() != Some(word)), "{text}");
    }
}

fn refuses(r: &Request, number: u32) {
    prints(&Job::of(r).file(), &refused(number));
}

fn alone_in(form: &Form, number: u32) {
    assert!((form.ways)(number).len() >= 3);
    form.alone(number, refuses);
}

fn alone(number: u32) {
    alone_in(&WITHOUT_C, number);
}

#[test]
fn refusal_1_alone() {
    alone(1);
}

#[test]
fn refusal_3_alone() {
    alone(3);
}

#[test]
fn refusal_4_alone() {
    alone(4);
}

#[test]
fn refusal_5_alone() {
    alone(5);
}

#[test]
fn refusal_6_alone() {
    alone(6);
}

#[test]
fn refusal_7_alone() {
    alone(7);
}

#[test]
fn refusal_8_alone() {
    alone(8);
}

#[test]
fn refusal_9_alone() {
    alone(9);
}

#[test]
fn refusal_10_alone() {
    alone(10);
}

#[test]
fn refusal_12_alone() {
    alone(12);
}

#[test]
fn refusal_30_alone() {
    alone_in(&WITH_C, 30);
}

/// The others, of which C can fail 1, 3, 4, 5, 6 and 8 alone.
#[test]
fn every_refusal_alone_with_c() {
    NUMBERS_WITH_C.iter().for_each(|number| alone_in(&WITH_C, *number));
}

/// Where the later question is broken too, the earlier one answers, whichever tensors fail the two.
#[test]
fn every_pair() {
    assert_eq!(WITHOUT_C.every_pair(&NUMBERS, refuses), 45);
}

#[test]
fn every_pair_with_c() {
    assert_eq!(WITH_C.every_pair(&NUMBERS_WITH_C, refuses), 55);
}

/// With this question and all later ones broken, this one answers.
#[test]
fn all_later_ones_broken_too() {
    WITHOUT_C.all_later_ones_broken_too(&NUMBERS, refuses);
    WITH_C.all_later_ones_broken_too(&NUMBERS_WITH_C, refuses);
}

/// The largest tile needs exactly the words of work that there are.
#[test]
fn the_largest_tile_is_not_refused_by_11() {
    for form in [WITHOUT_C, WITH_C] {
        let job = Job { sizes: [64, 64, 128], done: 0, ..Job::of(&form.broken(&[])) };
        assert!(check(&job.file()).starts_with("tiles 1 of 1\n"));
    }
}

/// A size of 2 bytes is read whole: 257 is not 1.
#[test]
fn sizes_of_two_bytes() {
    let with_bit = |which: usize, bit: u16| {
        let mut job = Job::of(&WITHOUT_C.broken(&[]));
        job.sizes[which] |= 1 << bit;
        (10, job.file())
    };
    refuse((0..3).flat_map(|which| (8..16).map(move |bit| with_bit(which, bit))).collect());
}
