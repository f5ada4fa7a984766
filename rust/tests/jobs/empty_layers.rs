//! Jobs with labels of extent 0, their answers written out.

use crate::common::case::{Case, Tensor};
use crate::common::job::Job;
use crate::common::program::{check, prints};

fn job(a: Tensor, b: Tensor, d: Tensor) -> Job {
    let case = Case { a, b, c: None, d, alpha: 7, beta: 3 };
    Job { case, as_bytes: [false; 3], sizes: [1, 2, 4], done: 0, budget: u32::MAX }
}

/// A(i,k) × B(k,j) into D(i,j) of 2 rows and 3 columns, with k of extent 0: four tiles of one row and two columns.
fn no_terms() -> Job {
    let a = Tensor::new("ik", &[2, 0], &[1, 2], 0, &[]);
    let b = Tensor::new("kj", &[0, 3], &[1, 0], 0, &[]);
    job(a, b, Tensor::new("ij", &[2, 3], &[1, 2], 0, &[10, 20, 30, 40, 50, 60]))
}

/// One term, and a D of these words with one label of extent 0.
fn no_outputs(words: &[u32]) -> Job {
    job(Tensor::scalar(2), Tensor::scalar(5), Tensor::new("i", &[0], &[1], 0, words))
}

/// Beta × old, final.
#[test]
fn a_depth_of_size_0() {
    prints(&no_terms().file(), "tiles 4 of 4\n30 f\n60 f\n90 f\n120 f\n150 f\n180 f\n");
    let none = Job { budget: 0, ..no_terms() };
    prints(&none.file(), "tiles 0 of 4\n10 o\n20 o\n30 o\n40 o\n50 o\n60 o\n");
}

/// Tiles of the one panel in their order: no word is ever in part.
#[test]
fn some_tiles_with_no_terms() {
    let with = |done, budget| Job { done, budget, ..no_terms() }.file();
    prints(&with(0, 1), "tiles 1 of 4\n30 f\n20 o\n90 f\n40 o\n50 o\n60 o\n");
    prints(&with(0, 3), "tiles 3 of 4\n30 f\n60 f\n90 f\n120 f\n150 f\n60 o\n");
    prints(&with(1, 2), "tiles 3 of 4\n10 f\n60 f\n30 f\n120 f\n150 f\n60 o\n");
    prints(&with(4, 9), "tiles 4 of 4\n10 f\n20 f\n30 f\n40 f\n50 f\n60 f\n");
    prints(&with(5, 0), "refused 12\n");
}

/// The label of extent 0 is A's alone, B's alone, or both have it; words wrap.
#[test]
fn a_sum_over_no_values() {
    for tensors in [&[0][..], &[1], &[0, 1]] {
        let mut job = job(Tensor::scalar(2), Tensor::scalar(5), Tensor::scalar(1 << 31));
        tensors.iter().for_each(|which| job.case.tensor_mut(*which).push(b'k', 0, 1));
        prints(&job.file(), "tiles 1 of 1\n2147483648 f\n");
        job.case.beta = 0;
        prints(&job.file(), "tiles 1 of 1\n0 f\n");
    }
}

/// No output index addresses a word, so each is marked as one outside the layout.
#[test]
fn no_tiles() {
    for tensors in [&[2][..], &[0, 2], &[1, 2], &[0, 1, 2]] {
        let mut job = no_outputs(&[8, 9, 4_294_967_295]);
        tensors.iter().for_each(|which| job.case.tensor_mut(*which).push(b'e', 0, 1));
        for budget in [0, 1, u32::MAX] {
            prints(&Job { budget, ..job.clone() }.file(), "tiles 0 of 0\n8 -\n9 -\n4294967295 -\n");
        }
        for done in [1, 2, u32::MAX] {
            prints(&Job { done, ..job.clone() }.file(), "refused 12\n");
        }
        job.sizes[1] = 65;
        prints(&Job { done: 1, ..job }.file(), "refused 10\n");
    }
}

/// The first line is all that is printed where D's slice has no words.
#[test]
fn no_words() {
    let mut job = no_outputs(&[]);
    prints(&job.file(), "tiles 0 of 0\n");
    job.case.a = Tensor::new("k", &[0], &[1], 5, &[]);
    job.case.b = Tensor::new("ik", &[0, 0], &[0, 0], 7, &[]);
    prints(&job.file(), "tiles 0 of 0\n");
    (0..3).for_each(|which| job.write_as_bytes(which));
    prints(&job.file(), "tiles 0 of 0\n");
}

/// 4,096 words of which none is an entry, written as words and as bytes.
#[test]
fn many_words_and_no_entries() {
    let mut job = no_outputs(&[200; 4_096]);
    let text = format!("tiles 0 of 0\n{}", "200 -\n".repeat(4_096));
    prints(&job.file(), &text);
    job.write_as_bytes(2);
    prints(&job.file(), &text);
}

/// D with entries and gaps, and D without entries over the same words.
#[test]
fn gaps_beside_words_that_are_final() {
    let d = Tensor::new("ij", &[2, 2], &[-2, 3], 3, &[1, 2, 3, 4, 5, 6, 7, 8]);
    let mut job = job(Tensor::new("k", &[0], &[1], 0, &[]), Tensor::scalar(1), d);
    prints(&job.file(), "tiles 4 of 4\n1 -\n6 f\n3 -\n12 f\n15 f\n6 -\n21 f\n8 -\n");
    job.case.d.extents[1] = 0;
    prints(&job.file(), "tiles 0 of 0\n1 -\n2 -\n3 -\n4 -\n5 -\n6 -\n7 -\n8 -\n");
}

/// A batch x, a row y and a column z, of which one is empty and the two others have 32,768 values.
#[test]
fn large_groups_beside_an_empty_one() {
    for empty in 0..3 {
        let mut extents = [32_768; 3];
        extents[empty] = 0;
        let [x, y, z] = extents;
        let a = Tensor::new("xy", &[x, y], &[0, 0], 0, &[2]);
        let b = Tensor::new("xz", &[x, z], &[0, 0], 0, &[7]);
        let d = Tensor::new("xyz", &extents, &[0, 0, 0], 0, &[9]);
        prints(&job(a, b, d).file(), "tiles 0 of 0\n9 -\n");
    }
    let a = Tensor::new("wx", &[32_768, 32_768], &[0, 0], 0, &[2]);
    let b = Tensor::new("wxz", &[32_768, 32_768, 0], &[0, 0, 0], 0, &[7]);
    let d = Tensor::new("wxz", &[32_768, 32_768, 0], &[0, 0, 0], 0, &[9]);
    prints(&job(a, b, d).file(), "tiles 0 of 0\n9 -\n");
}

/// The first line of the answer where this tensor, A 0, B 1 or D 2, has these axes, base and count of words.
fn first_line(which: usize, extents: &[u32], strides: &[i32], base: u32, count: usize) -> String {
    let mut job = job(Tensor::scalar(2), Tensor::scalar(5), Tensor::scalar(9));
    *job.case.tensor_mut(which) = Tensor::new(&"uvwxyz"[..extents.len()], extents, strides, base, &vec![3; count]);
    check(&job.file()).lines().next().expect("a line").to_string()
}

/// What the questions say of a tensor without entries, with the extent 0 and with another in its place.
#[test]
fn questions() {
    for which in 0..3 {
        let accepted = if which == 2 { "tiles 0 of 0" } else { "tiles 1 of 1" };
        let line = |extents: &[u32], strides: &[i32], base, count| first_line(which, extents, strides, base, count);
        assert_eq!(line(&[0], &[1], 0, 0), accepted);
        assert_eq!(line(&[65_537, 0], &[0, 0], 0, 0), "refused 4");
        assert_eq!(line(&[0, 65_536], &[-16_777_216, 16_777_216], 16_777_216, 0), accepted);
        assert_eq!(line(&[0], &[16_777_217], 0, 0), "refused 5");
        assert_eq!(line(&[0], &[1], 16_777_217, 0), "refused 5");
        assert_eq!(line(&[32_768, 0, 32_768], &[0, 0, 0], 0, 1), accepted);
        assert_eq!(line(&[32_768, 0, 32_769], &[0, 0, 0], 0, 1), "refused 7");
        assert_eq!(line(&[4, 0], &[1, 1], 9, 2), accepted);
        assert_eq!(line(&[4, 1], &[1, 1], 9, 2), "refused 8");
        assert_eq!(line(&[3, 2, 0], &[2, 3, 0], 0, 8), accepted);
    }
    assert_eq!(first_line(2, &[3, 2, 1], &[2, 3, 0], 0, 8), "refused 9");
    assert_eq!(first_line(2, &[3, 0], &[0, 0], 0, 1), "tiles 0 of 0");
}

/// A tensor with entries is asked whether they are inside, whichever other one has none.
#[test]
fn the_other_tensors_are_asked() {
    for (empty, asked) in [(0, 1), (0, 2), (1, 0), (1, 2), (2, 0), (2, 1)] {
        let mut job = job(Tensor::scalar(2), Tensor::scalar(5), Tensor::scalar(9));
        job.case.tensor_mut(empty).push(b'e', 0, 1);
        job.case.tensor_mut(asked).words.clear();
        prints(&job.file(), "refused 8\n");
        job.case.tensor_mut(asked).push(b'e', 1, 1);
        prints(&job.file(), "refused 6\n");
    }
}
