//! Fixed point in larger contractions: blocks of every sort, tiles of every size, and runs of outputs of every length. Words
//! are random ones of 16 bits, so that a term that is lost, or taken twice, shows in its sum.

use crate::common::case::{same_words, Case, Tensor};
use crate::common::cutting::SIZES;
use crate::common::fixed_call::check_plain;
use crate::common::fixed_list::{run_in, FixedList};
use crate::common::fixed_make::cut_to_16_bits;
use crate::common::formula::{contraction, reverse};
use crate::common::rng::Rng;
use nezgrak::TileSizes;

/// A contraction by a formula, with words of 16 bits in A and B.
fn fixed(seed: u64, formula: &str, letters: &str, extents: &[u32], gap: i32) -> Case {
    let mut case = contraction(seed, formula, letters, extents, gap);
    cut_to_16_bits(&mut case);
    case
}

/// All tiles, in one call and in several, leave what the plain call leaves; and the last half of them, with sums as they are
/// met, what the model says.
fn runs(case: &Case, shift: u32, sizes: &[TileSizes]) {
    let plain = check_plain(case, shift);
    assert_eq!(plain.answer, 0);
    for sizes in sizes {
        for calls in [1, 6] {
            same_words("D", case, &run_in(case, shift, *sizes, calls).0, &plain.words);
        }
        let mut rng = Rng::new(shift.into());
        let sums: Vec<i64> = case.d.words.iter().map(|_| rng.next() as i64).collect();
        let total = FixedList::new(case, shift, *sizes, 0, sums.clone()).left();
        let mut list = FixedList::new(case, shift, *sizes, total / 2, sums);
        (0..2).for_each(|_| list.step(total.div_ceil(4), &mut rng));
    }
}

const LARGER: [TileSizes; 3] = [
    TileSizes { rows: 64, cols: 64, depth: 128 },
    TileSizes { rows: 33, cols: 17, depth: 40 },
    TileSizes { rows: 7, cols: 11, depth: 13 },
];

#[test]
fn larger_matrices() {
    runs(&fixed(0xf17e_0001, "ik,kj>ij", "ijk", &[64, 48, 80], 0), 7, &LARGER);
    let mut case = fixed(0xf17e_0002, "ki,jk>ji", "ijk", &[61, 53, 67], 3);
    reverse(&mut case.a, 0);
    reverse(&mut case.d, 1);
    runs(&case, 12, &LARGER);
}

#[test]
fn larger_batches_and_groups() {
    runs(&fixed(0xf17e_0003, "hik,khj>jhi", "hijk", &[6, 24, 20, 32], 1), 0, &LARGER);
    runs(&fixed(0xf17e_0004, "akb,dkc>cadb", "abkcd", &[8, 9, 20, 5, 6], 0), 4, &LARGER);
    runs(&fixed(0xf17e_0005, "abkl,klcd>abcd", "abklcd", &[8, 7, 6, 5, 5, 6], 0), 15, &LARGER);
    runs(&fixed(0xf17e_0006, "xi,iy>zi", "ixyz", &[20, 30, 25, 8], 2), 15, &LARGER);
}

/// Vectors, one product for each output, and a matrix with a vector on either side.
#[test]
fn larger_vectors() {
    runs(&fixed(0xf17e_0007, "i,i>", "i", &[65_536], 0), 15, &LARGER[..1]);
    runs(&fixed(0xf17e_0008, "i,j>ji", "ij", &[130, 150], 0), 3, &LARGER);
    runs(&fixed(0xf17e_0009, "jk,k>j", "jk", &[150, 170], 0), 9, &LARGER);
    runs(&fixed(0xf17e_000a, "k,kj>j", "jk", &[150, 170], 0), 9, &LARGER);
}

/// Rows and columns that are even, up and down, scattered, or on one word; and labels that fold or do not.
#[test]
fn blocks_of_every_sort() {
    let sizes = [SIZES[1], SIZES[2], SIZES[3], TileSizes { rows: 9, cols: 7, depth: 10 }];
    for (formula, extents, gap) in [
        ("abkl,klcd>abcd", [4, 5, 3, 6, 4, 3], 0),
        ("abk,dckl>acdb", [4, 5, 3, 6, 5, 2], 0),
        ("bkal,clkd>dbca", [4, 5, 3, 6, 4, 3], 1),
        ("kl,kc>abcd", [4, 5, 6, 2, 4, 3], 0),
        ("akl,kc>abcd", [4, 5, 6, 1, 4, 3], 2),
        ("acbk,lkcd>adcb", [4, 5, 3, 6, 4, 3], 0),
    ] {
        let mut case = fixed(0xf17e_000b, formula, "abcdkl", &extents, gap);
        runs(&case, 5, &sizes);
        (0..case.a.letters.len()).for_each(|axis| reverse(&mut case.a, axis));
        (0..case.d.letters.len()).step_by(2).for_each(|axis| reverse(&mut case.d, axis));
        runs(&case, 6, &sizes);
    }
}

/// D's diagonal: the words beside it keep their values, and so do their sums.
#[test]
fn diagonals() {
    let mut case = fixed(0xf17e_000c, "ki,kj>ij", "ijk", &[6, 5, 11], 0);
    let words: Vec<u32> = (900..900 + 6 * 6 * 5).collect();
    case.d = Tensor::new("iji", &[6, 5, 6], &[1, 36, 6], 0, &words);
    runs(&case, 8, &SIZES);
}

/// Every size of a tile, below, at and above the size of a group.
fn every_size(limit: u32, case_of: fn(u32) -> Case, with: fn(u32) -> TileSizes) {
    for group in [limit / 2 + 1, limit, limit + 3] {
        let case = case_of(group);
        for size in 1..=limit {
            run_in(&case, size % 16, with(size), 3);
        }
    }
}

/// Rows, columns and depth of these sizes.
fn matrices(rows: u32, columns: u32, depth: u32) -> Case {
    fixed(0xf17e_0100 + u64::from(rows), "ik,kj>ij", "ijk", &[rows, columns, depth], 0)
}

#[test]
fn rows_1_to_64() {
    every_size(64, |rows| matrices(rows, 3, 4), |rows| TileSizes { rows, cols: 2, depth: 3 });
}

#[test]
fn cols_1_to_64() {
    every_size(64, |columns| matrices(3, columns, 4), |cols| TileSizes { rows: 2, cols, depth: 3 });
}

#[test]
fn depth_1_to_128() {
    every_size(128, |depth| matrices(3, 2, depth), |depth| TileSizes { rows: 2, cols: 2, depth });
}

/// The largest tile, exactly filled, one count less and one count more in each group.
#[test]
fn the_largest_tile() {
    for (rows, columns, depth) in [(64, 64, 128), (63, 63, 127), (65, 64, 128), (64, 65, 128), (64, 64, 129)] {
        let case = matrices(rows, columns, depth);
        same_words("D", &case, &run_in(&case, 7, LARGER[0], 9).0, &check_plain(&case, 7).words);
    }
}

/// Runs of 1 to 140 outputs and of 1 to 140 terms by the plain call, in each order of the strides.
#[test]
fn runs_of_every_length() {
    for length in 1..=140 {
        for formula in ["ik,kj>ij", "ki,kj>ij", "ik,jk>ji", "ki,jk>ji"] {
            check_plain(&fixed(u64::from(length), formula, "ijk", &[length, 5, 3], 0), length % 16);
            check_plain(&fixed(u64::from(length), formula, "ijk", &[3, 5, length], 0), length % 16);
        }
    }
}
