//! Jobs that name C, their answers written out.

use crate::common::case::{Case, Tensor};
use crate::common::job::Job;
use crate::common::program::{check, prints};

/// Document 01's example with C: 10 where j is 0, 20 where it is 1.
fn example(done: u32, budget: u32) -> Job {
    Job { done, budget, ..Job::example_with_c() }
}

const ALL: &str = "tiles 8 of 8\n31 f\n34 f\n48 f\n50 f\n";

/// Words that no tile has reached hold D's old value, those that one has do not have it.
#[test]
fn some_tiles() {
    prints(&example(0, 0).file(), "tiles 0 of 8\n100 o\n200 o\n300 o\n400 o\n");
    prints(&example(0, 1).file(), "tiles 1 of 8\n21 p\n200 o\n300 o\n400 o\n");
    prints(&example(0, 3).file(), "tiles 3 of 8\n31 f\n22 p\n300 o\n400 o\n");
    prints(&example(0, 5).file(), "tiles 5 of 8\n31 f\n34 f\n43 p\n400 o\n");
    prints(&example(0, 8).file(), ALL);
}

/// Later panels add to D's words as they are given, and C is not looked at.
#[test]
fn tiles_done_before() {
    prints(&example(1, 1).file(), "tiles 2 of 8\n100 p\n22 p\n300 o\n400 o\n");
    prints(&example(2, 3).file(), "tiles 5 of 8\n110 f\n212 f\n43 p\n400 o\n");
    prints(&example(4, 4).file(), "tiles 8 of 8\n100 f\n200 f\n48 f\n50 f\n");
    prints(&example(6, 9).file(), "tiles 8 of 8\n100 f\n200 f\n305 f\n406 f\n");
    prints(&example(8, 9).file(), "tiles 8 of 8\n100 f\n200 f\n300 f\n400 f\n");
    prints(&example(9, 0).file(), "refused 12\n");
}

#[test]
fn every_count_and_budget() {
    for done in 0..=8 {
        for budget in (0..=9).chain([u32::MAX]) {
            let text = check(&example(done, budget).file());
            let after = done.saturating_add(budget).min(8);
            assert!(text.starts_with(&format!("tiles {after} of 8\n")), "{text}");
        }
    }
}

/// Where a job's D has the words that another's answer shows, it goes on from there.
#[test]
fn one_job_after_another() {
    for first in 0..=8 {
        let text = check(&example(0, first).file());
        let word = |line: &str| line.split(' ').next().and_then(|word| word.parse().ok()).expect("a word");
        let mut rest = example(first, 8 - first);
        rest.case.d.words = text.lines().skip(1).map(word).collect();
        prints(&rest.file(), ALL);
    }
}

/// One C for two recordings, whatever stood in D before.
#[test]
fn the_old_words_do_not_count() {
    for old in [0, 7, u32::MAX] {
        let mut job = example(0, 8);
        job.case.d.words = vec![old; 4];
        prints(&job.file(), ALL);
        job.case.a.words = vec![6, 5, 4, 3, 2, 1];
        prints(&job.file(), "tiles 8 of 8\n30 f\n27 f\n46 f\n44 f\n");
        job.budget = 3;
        prints(&job.file(), &format!("tiles 3 of 8\n30 f\n25 p\n{old} o\n{old} o\n"));
    }
}

/// A D(i,j) of four words that become 1000 × C's entries.
fn only_c(c: Tensor) -> Job {
    let d = Tensor::new("ij", &[2, 2], &[1, 2], 0, &[5, 6, 7, 8]);
    let case = Case { a: Tensor::scalar(1), b: Tensor::scalar(1), c: Some(c), d, alpha: 0, beta: 1000 };
    Job { case, as_bytes: [false; 3], sizes: [1, 1, 1], done: 0, budget: u32::MAX }
}

/// Every layout of C that gives 1 2 3 4: letters in another order, a base and gaps, negative strides, and repeated
/// letters, of which the diagonal is read.
#[test]
fn layouts() {
    let same = [
        Tensor::new("ij", &[2, 2], &[1, 2], 0, &[1, 2, 3, 4]),
        Tensor::new("ji", &[2, 2], &[2, 1], 0, &[1, 2, 3, 4]),
        Tensor::new("ji", &[2, 2], &[1, 2], 0, &[1, 3, 2, 4]),
        Tensor::new("ij", &[2, 2], &[3, 5], 1, &[0, 1, 0, 0, 2, 0, 3, 0, 0, 4, 0]),
        Tensor::new("ij", &[2, 2], &[-1, -2], 3, &[4, 3, 2, 1]),
        Tensor::new("ij", &[2, 2], &[1, -2], 2, &[3, 4, 1, 2]),
        Tensor::new("iij", &[2, 2, 2], &[3, -2, 2], 0, &[1, 2, 3, 4]),
        Tensor::new("jijij", &[2; 5], &[4, -16_777_215, -4, 16_777_216, 2], 0, &[1, 2, 3, 4]),
        Tensor::new("ij", &[2, 2], &[1, 2], 0, &[1, 2, 3, 4, 9, 9, 9]),
    ];
    for c in same {
        prints(&only_c(c).file(), "tiles 4 of 4\n1000 f\n2000 f\n3000 f\n4000 f\n");
    }
}

/// Entries of C may share words: question 9 is not asked of it.
#[test]
fn layouts_that_share_words() {
    let with = |strides: &[i32], base, words: &[u32]| only_c(Tensor::new("ij", &[2, 2], strides, base, words)).file();
    prints(&with(&[0, 0], 0, &[3]), "tiles 4 of 4\n3000 f\n3000 f\n3000 f\n3000 f\n");
    prints(&with(&[0, 1], 0, &[3, 4]), "tiles 4 of 4\n3000 f\n3000 f\n4000 f\n4000 f\n");
    prints(&with(&[1, 0], 0, &[3, 4]), "tiles 4 of 4\n3000 f\n4000 f\n3000 f\n4000 f\n");
    prints(&with(&[1, 1], 0, &[3, 4, 5]), "tiles 4 of 4\n3000 f\n4000 f\n4000 f\n5000 f\n");
    prints(&with(&[1, -1], 1, &[3, 4, 5]), "tiles 4 of 4\n4000 f\n5000 f\n3000 f\n4000 f\n");
}

/// D's diagonal beside C's row, C's diagonal beside D's row, and the words off D's diagonal, which stay.
#[test]
fn repeated_letters() {
    let mut job = only_c(Tensor::new("i", &[2], &[1], 0, &[3, 4]));
    job.case.d.letters = b"ii".to_vec();
    prints(&job.file(), "tiles 2 of 2\n3000 f\n6 -\n7 -\n4000 f\n");
    job.case.d = Tensor::new("i", &[2], &[2], 1, &[5, 6, 7, 8]);
    job.case.c = Some(Tensor::new("ii", &[2, 2], &[1, 2], 0, &[3, 9, 9, 4]));
    prints(&job.file(), "tiles 2 of 2\n5 -\n3000 f\n7 -\n4000 f\n");
}

#[test]
fn no_letters() {
    let mut job = only_c(Tensor::new("", &[], &[], 2, &[8, 9, 3]));
    job.case.d = Tensor::scalar(7);
    prints(&job.file(), "tiles 1 of 1\n3000 f\n");
    prints(&Job { budget: 0, ..job.clone() }.file(), "tiles 0 of 1\n7 o\n");
    prints(&Job { done: 1, ..job.clone() }.file(), "tiles 1 of 1\n7 f\n");
    (job.case.alpha, job.case.beta) = (2, u32::MAX);
    prints(&job.file(), "tiles 1 of 1\n4294967295 f\n");
}

/// With beta 0 nothing of C is seen, but it is still asked.
#[test]
fn beta_0() {
    let mut job = example(0, 8);
    job.case.beta = 0;
    prints(&job.file(), "tiles 8 of 8\n11 f\n14 f\n8 f\n10 f\n");
    job.case.tensor_mut(3).words.pop();
    prints(&job.file(), "refused 8\n");
    job.case.tensor_mut(3).letters.reverse();
    prints(&job.file(), "refused 8\n");
    job.case.tensor_mut(3).letters[0] = b'k';
    prints(&job.file(), "refused 6\n");
    job.case.tensor_mut(3).extents[0] = 3;
    prints(&job.file(), "refused 30\n");
}

/// A sum over no values is 0, so that beta × C is left. Where D and C have no entries, no word changes.
#[test]
fn empty_layers() {
    let mut job = example(0, 3);
    (job.case.a.extents[1], job.case.b.extents[0]) = (0, 0);
    prints(&job.file(), "tiles 3 of 4\n20 f\n20 f\n40 f\n400 o\n");
    prints(&Job { done: 2, ..job.clone() }.file(), "tiles 4 of 4\n100 f\n200 f\n40 f\n40 f\n");
    let mut job = example(0, 3);
    (job.case.b.extents[1], job.case.d.extents[1]) = (0, 0);
    prints(&job.file(), "refused 6\n");
    job.case.tensor_mut(3).extents[1] = 0;
    prints(&job.file(), "tiles 0 of 0\n100 -\n200 -\n300 -\n400 -\n");
    job.case.tensor_mut(3).words.clear();
    job.case.tensor_mut(3).base = 16_777_216;
    prints(&job.file(), "tiles 0 of 0\n100 -\n200 -\n300 -\n400 -\n");
    job.case.tensor_mut(3).base += 1;
    prints(&job.file(), "refused 5\n");
}

/// Number 30 is about sets of letters: it comes after 6, of C's letters too, and before 7 and 8.
#[test]
fn letters_that_are_not_those_of_d() {
    let with = |letters: &str, extents: &[u32]| {
        let mut job = example(0, 8);
        job.case.c = Some(Tensor::new(letters, extents, &vec![0; extents.len()], 0, &[10]));
        check(&job.file())
    };
    for (letters, extents) in [("", &[][..]), ("i", &[2]), ("jj", &[2, 2]), ("ijk", &[2, 2, 3]), ("ijx", &[2, 2, 1])] {
        assert_eq!(with(letters, extents), "refused 30\n");
    }
    assert_eq!(with("IJ", &[2, 2]), "refused 30\n");
    assert_eq!(with("jii", &[2, 2, 2]), "tiles 8 of 8\n31 f\n34 f\n28 f\n30 f\n");
    assert_eq!(with("ijk", &[2, 2, 4]), "refused 6\n");
    assert_eq!(with("ijx", &[2, 2, 65_537]), "refused 4\n");
    assert_eq!(with("ij\0", &[2, 2, 1]), "refused 3\n");
    assert_eq!(with("ijxyz", &[2, 2, 65_536, 65_536, 65_536]), "refused 30\n");
}
