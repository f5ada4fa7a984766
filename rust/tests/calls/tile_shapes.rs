//! Blocks of every sort: even ones, up, down and with step 0, scattered ones, and labels that fold or do not. Each is run
//! without C and with it.

use crate::common::case::{Case, Tensor};
use crate::common::cutting::{run_in, SIZES};
use crate::common::formula::{contraction, reverse, with_c_too};
use crate::common::groups::Groups;
use crate::common::list::List;
use crate::common::rng::Rng;
use nezgrak::TileSizes;

/// By itself, and with C in several layouts.
fn runs(case: &Case) {
    with_c_too(case).iter().for_each(runs_as_it_is);
}

/// All tiles, in one call and in several; and the last half of the tiles, on words as they are given.
fn runs_as_it_is(case: &Case) {
    let uneven = TileSizes { rows: 9, cols: 7, depth: 10 };
    for sizes in SIZES[1..].iter().copied().chain([uneven]) {
        run_in(case, sizes, 1);
        run_in(case, sizes, 6);
        let total = List::new(case, sizes, 0).left();
        let mut list = List::new(case, sizes, total / 2);
        (0..2).for_each(|_| list.step(total.div_ceil(4), &mut Rng::new(total)));
    }
}

/// The steps of the first counts of rows in A and D and of columns in B and D; None is scattered.
fn steps(case: &Case, rows: u64, columns: u64) -> [Option<i64>; 4] {
    let Groups { row, column, .. } = Groups::of(case);
    let [row_a, row_d] = [&case.a, &case.d].map(|t| row.even_step(t, 0..rows));
    let [column_b, column_d] = [&case.b, &case.d].map(|t| column.even_step(t, 0..columns));
    [row_a, row_d, column_b, column_d]
}

#[test]
fn groups_that_fold() {
    let case = contraction(0x5a9e_0001, "abkl,klcd>abcd", "abcdkl", &[4, 5, 3, 6, 4, 3], 0);
    assert_eq!(steps(&case, 20, 18), [Some(1), Some(1), Some(12), Some(20)]);
    runs(&case);
}

#[test]
fn labels_of_extent_1_between_those_that_fold() {
    let case = contraction(0x5a9e_0002, "axbk,kycd>axbycd", "axbycdk", &[4, 1, 5, 1, 3, 6, 11], 0);
    assert_eq!(steps(&case, 20, 18), [Some(1), Some(1), Some(11), Some(20)]);
    runs(&case);
}

/// The rows go on in A and not in D, the columns in D and not in B.
#[test]
fn even_in_one_tensor_and_scattered_in_the_other() {
    let case = contraction(0x5a9e_0003, "abk,dck>acdb", "abcdk", &[4, 5, 3, 6, 11], 0);
    assert_eq!(steps(&case, 20, 18), [Some(1), None, None, Some(4)]);
    runs(&case);
}

#[test]
fn scattered_everywhere() {
    let case = contraction(0x5a9e_0004, "bkal,clkd>dbca", "abcdkl", &[4, 5, 3, 6, 4, 3], 0);
    assert_eq!(steps(&case, 20, 18), [None; 4]);
    runs(&case);
}

/// A block that only its last offset makes scattered.
#[test]
fn one_offset_out_of_step() {
    let mut case = contraction(0x5a9e_0005, "abk,kcd>abcd", "abcdk", &[63, 2, 63, 2, 3], 0);
    case.d = Tensor::new("abcd", &[63, 2, 63, 2], &[1, 8_000, 63, 4_000], 0, &case.d.words);
    case.d.words.resize(15_969, 5);
    assert_eq!(steps(&case, 63, 63), [Some(1), Some(1), Some(3), Some(63)]);
    assert_eq!(steps(&case, 64, 64), [Some(1), None, Some(3), None]);
    runs(&case);
}

/// D's own labels are rows that stay on one word of A; B's column stays on one word too.
#[test]
fn step_0() {
    let mut case = contraction(0x5a9e_0006, "k,kc>abc", "abck", &[4, 5, 6, 11], 0);
    assert_eq!(steps(&case, 20, 6), [Some(0), Some(1), Some(11), Some(20)]);
    case.b.strides[0] = 0;
    assert_eq!(steps(&case, 20, 6), [Some(0), Some(1), Some(0), Some(20)]);
    runs(&case);
}

/// A row of A, then one of D only: the offsets 0 1 2 3 0 1 2 3 .. are scattered.
#[test]
fn step_0_after_another_step() {
    let case = contraction(0x5a9e_0007, "ak,kc>abc", "abck", &[4, 5, 6, 11], 0);
    assert_eq!(steps(&case, 20, 6), [None, Some(1), Some(11), Some(20)]);
    runs(&case);
    let case = contraction(0x5a9e_0008, "ak,kc>bac", "back", &[5, 4, 6, 11], 0);
    assert_eq!(steps(&case, 20, 6)[0], None);
    assert_eq!(steps(&case, 5, 6)[0], Some(0));
    runs(&case);
}

#[test]
fn blocks_that_count_down() {
    let mut case = contraction(0x5a9e_0009, "abk,kcd>abcd", "abcdk", &[4, 5, 3, 6, 11], 0);
    (0..2).for_each(|axis| reverse(&mut case.a, axis));
    (0..2).for_each(|axis| reverse(&mut case.b, axis));
    (0..4).for_each(|axis| reverse(&mut case.d, axis));
    assert_eq!(steps(&case, 20, 18), [Some(-1), Some(-1), Some(-11), Some(-20)]);
    runs(&case);
}

/// One label of two counts down, so that the group no longer folds.
#[test]
fn up_and_down_in_one_group() {
    let mut case = contraction(0x5a9e_000a, "abk,kcd>abcd", "abcdk", &[4, 5, 3, 6, 11], 2);
    reverse(&mut case.a, 0);
    reverse(&mut case.b, 1);
    reverse(&mut case.d, 1);
    assert_eq!(steps(&case, 20, 18), [None; 4]);
    assert_eq!(steps(&case, 4, 3), [Some(-1), Some(1), Some(11), Some(32)]);
    runs(&case);
}

/// Batch labels that fold, and ones that go on in two of the three tensors only.
#[test]
fn batches() {
    runs(&contraction(0x5a9e_000b, "ghik,ghkj>ghij", "ghijk", &[3, 2, 5, 4, 11], 0));
    runs(&contraction(0x5a9e_000c, "ghik,hgkj>ghij", "ghijk", &[3, 2, 5, 4, 11], 0));
    runs(&contraction(0x5a9e_000d, "igkh,ghkj>ghij", "ghijk", &[3, 2, 5, 4, 11], 1));
    runs(&contraction(0x5a9e_000e, "ghik,ghkj>jhig", "ghijk", &[3, 2, 5, 4, 11], 0));
}

/// Depth labels of both tensors, of A alone and of B alone, in the order of A's letters and then B's.
#[test]
fn depths() {
    runs(&contraction(0x5a9e_000f, "kiml,ljkn>ij", "ijmkln", &[5, 4, 3, 2, 4, 3], 0));
    runs(&contraction(0x5a9e_0010, "kli,jn>ij", "ijkln", &[5, 4, 3, 4, 5], 0));
    runs(&contraction(0x5a9e_0011, "i,jkln>ij", "ijkln", &[5, 4, 3, 4, 5], 0));
}

/// The words that D's diagonal leaves out keep their values from the first tile to the last.
#[test]
fn diagonals() {
    let mut case = contraction(0x5a9e_0012, "ki,kj>ij", "ijk", &[6, 5, 11], 0);
    let words: Vec<u32> = (900..900 + 6 * 6 * 5).collect();
    case.d = Tensor::new("iji", &[6, 5, 6], &[1, 36, 6], 0, &words);
    assert_eq!(steps(&case, 6, 5), [Some(11), Some(7), Some(11), Some(36)]);
    runs(&case);
}

/// Panels with no terms for blocks of every sort: even and scattered ones, ones that count down, and batches.
#[test]
fn depths_of_size_0() {
    runs(&contraction(0x5a9e_0013, "abkl,klcd>abcd", "abcdkl", &[4, 5, 3, 6, 0, 3], 0));
    runs(&contraction(0x5a9e_0014, "bkal,clkd>dbca", "abcdkl", &[4, 5, 3, 6, 4, 0], 1));
    runs(&contraction(0x5a9e_0015, "i,jkln>ij", "ijkln", &[70, 66, 3, 0, 0], 0));
    let mut case = contraction(0x5a9e_0016, "ghik,hgkj>ghij", "ghijk", &[3, 2, 5, 4, 0], 2);
    (0..4).for_each(|axis| reverse(&mut case.d, axis));
    runs(&case);
}

/// Each label of D in turn has extent 0, with words that no entry addresses and without any.
#[test]
fn outputs_of_size_0() {
    for (empty, gap) in (0..6).flat_map(|empty| [(empty, 0), (empty, 2)]) {
        let mut extents = [4, 5, 3, 6, 2, 11, 3];
        extents[empty] = 0;
        let case = contraction(0x5a9e_0017, "bkah,chkd>dbchae", "abcdehk", &extents, gap);
        assert_eq!(case.d.words.is_empty(), gap == 0);
        runs(&case);
    }
}
