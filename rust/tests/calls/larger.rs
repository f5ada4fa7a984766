//! Larger contractions against the model, each with packed tensors and random words, without C and with it: by the plain
//! call, and by tile calls with tiles of three sizes.

use crate::common::call::check;
use crate::common::case::{same_words, Case};
use crate::common::cutting::run_in;
use crate::common::formula::{contraction, reverse, with_c_too};
use nezgrak::TileSizes;

fn accepts(case: &Case) {
    with_c_too(case).iter().for_each(accepts_as_it_is);
}

fn accepts_as_it_is(case: &Case) {
    let plain = check(case);
    assert_eq!(plain.answer, 0);
    for (rows, cols, depth, calls) in [(64, 64, 128, 1), (33, 17, 40, 5), (7, 11, 13, 10)] {
        let words = run_in(case, TileSizes { rows, cols, depth }, calls);
        same_words("D", case, &words, &plain.words);
    }
}

#[test]
fn matrix_product() {
    accepts(&contraction(0x1a46_0001, "ik,kj>ij", "ijk", &[64, 48, 80], 0));
}

#[test]
fn transposed_matrices_with_gaps_in_d() {
    let mut case = contraction(0x1a46_0002, "ki,jk>ji", "ijk", &[61, 53, 67], 3);
    reverse(&mut case.a, 0);
    reverse(&mut case.d, 1);
    accepts(&case);
}

#[test]
fn batch_of_matrices() {
    accepts(&contraction(0x1a46_0003, "hik,khj>jhi", "hijk", &[12, 24, 20, 32], 1));
}

#[test]
fn five_labels() {
    accepts(&contraction(0x1a46_0004, "akb,dkc>cadb", "abkcd", &[8, 9, 40, 10, 11], 0));
}

/// The rows a and b, the columns c and d, and the depths k and l each fold into one label.
#[test]
fn groups_that_fold() {
    accepts(&contraction(0x1a46_000a, "abkl,klcd>abcd", "abklcd", &[8, 7, 6, 9, 10, 11], 0));
}

#[test]
fn two_depths_and_a_batch() {
    let mut case = contraction(0x1a46_0005, "khil,ljhk>ihj", "hijkl", &[7, 15, 13, 16, 17], 0);
    reverse(&mut case.b, 2);
    accepts(&case);
}

/// Labels of A alone and of B alone are summed, one of D alone is broadcast.
#[test]
fn labels_of_one_tensor() {
    accepts(&contraction(0x1a46_0006, "xi,iy>zi", "ixyz", &[20, 30, 25, 18], 2));
}

#[test]
fn ten_labels() {
    accepts(&contraction(0x1a46_0007, "abcdefmn,nmdefghc>gabhdc", "abcdefghmn", &[3; 10], 1));
}

#[test]
fn dot_product_of_65_536() {
    accepts(&contraction(0x1a46_0008, "i,i>", "i", &[65_536], 0));
}

/// Each word of the output is one product: no label is summed.
#[test]
fn outer_product() {
    accepts(&contraction(0x1a46_0009, "i,j>ji", "ij", &[300, 500], 0));
}
