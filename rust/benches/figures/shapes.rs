//! The contractions that are measured.

use crate::contraction::Contraction;

/// 'ik,kj->ij': columns lie one after the other in each matrix.
pub fn matrices(rows: u32, cols: u32, depth: u32) -> Contraction {
    Contraction::random(
        ("ik", &[rows, depth], &[1, rows as i32], 0),
        ("kj", &[depth, cols], &[1, depth as i32], 0),
        ("ij", &[rows, cols], &[1, rows as i32], 0),
    )
}

/// 'abk,kcd->abcd': A is stored as bka, B as dkc and D as cadb, the first letter fastest, so that neither the row labels
/// ab nor the column labels cd fold into one.
pub fn permuted() -> Contraction {
    Contraction::random(
        ("abk", &[32, 16, 256], &[4096, 1, 16], 0),
        ("kcd", &[256, 16, 32], &[32, 8192, 1], 0),
        ("abcd", &[32, 16, 16, 32], &[16, 16384, 1, 512], 0),
    )
}

/// 'hik,hkj->hij': 64 products of matrices of 64×64, each matrix after the one before.
pub fn batched() -> Contraction {
    Contraction::random(
        ("hik", &[64, 64, 64], &[4096, 1, 64], 0),
        ("hkj", &[64, 64, 64], &[4096, 1, 64], 0),
        ("hij", &[64, 64, 64], &[4096, 1, 64], 0),
    )
}

/// The same, but the 64 matrices are interleaved: entries of one place stand side by side.
pub fn interleaved() -> Contraction {
    Contraction::random(
        ("hik", &[64, 64, 64], &[1, 64, 4096], 0),
        ("hkj", &[64, 64, 64], &[1, 64, 4096], 0),
        ("hij", &[64, 64, 64], &[1, 64, 4096], 0),
    )
}

/// 'abk,kcd->abcd', D's first label with stride 1 in A and in D; neither ab nor cd fold.
pub fn permuted_in_a_row() -> Contraction {
    Contraction::random(
        ("abk", &[32, 16, 256], &[1, 8192, 32], 0),
        ("kcd", &[256, 16, 32], &[1, 8192, 256], 0),
        ("abcd", &[32, 16, 16, 32], &[1, 16384, 1024, 32], 0),
    )
}

/// 'ik,kj->ij' of 256³: A's columns are stored upside down, and D has a gap after each word.
pub fn reversed_into_gaps() -> Contraction {
    Contraction::random(
        ("ik", &[256, 256], &[-1, 256], 255),
        ("kj", &[256, 256], &[1, 256], 0),
        ("ij", &[256, 256], &[2, 512], 0),
    )
}

/// 'abk,kc->abc': A is stored as bka and D as bca, so that the rows, of which a is the first label, come in pairs that lie
/// 32,768 words apart.
pub fn scattered() -> Contraction {
    Contraction::random(
        ("abk", &[2, 128, 256], &[32768, 1, 128], 0),
        ("kc", &[256, 256], &[1, 256], 0),
        ("abc", &[2, 128, 256], &[32768, 1, 128], 0),
    )
}

/// 'ik,k->i': A's rows lie one after the other.
pub fn rows_times_vector(size: u32) -> Contraction {
    Contraction::random(("ik", &[size, size], &[size as i32, 1], 0), ("k", &[size], &[1], 0), ("i", &[size], &[1], 0))
}

/// 'k,kj->j': B's rows lie one after the other.
pub fn vector_times_rows(size: u32) -> Contraction {
    Contraction::random(("k", &[size], &[1], 0), ("kj", &[size, size], &[size as i32, 1], 0), ("j", &[size], &[1], 0))
}

/// 'i,j->ij'.
pub fn outer(size: u32) -> Contraction {
    let strides = [1, size as i32];
    Contraction::random(("i", &[size], &[1], 0), ("j", &[size], &[1], 0), ("ij", &[size, size], &strides, 0))
}

/// 'ik,kj->ij': rows lie one after the other in each matrix.
pub fn row_major(size: u32) -> Contraction {
    let (extents, strides) = ([size, size], [size as i32, 1]);
    Contraction::random(("ik", &extents, &strides, 0), ("kj", &extents, &strides, 0), ("ij", &extents, &strides, 0))
}

/// 'kl,kl->': a million terms, which fold into one run.
pub fn dot() -> Contraction {
    let (extents, strides) = ([1000, 1000], [1, 1000]);
    Contraction::random(("kl", &extents, &strides, 0), ("kl", &extents, &strides, 0), ("", &[], &[], 0))
}

/// 'ij,ij->ij'.
pub fn by_elements(size: u32) -> Contraction {
    let (extents, strides) = ([size, size], [1, size as i32]);
    Contraction::random(("ij", &extents, &strides, 0), ("ij", &extents, &strides, 0), ("ij", &extents, &strides, 0))
}

/// 'ij,->ij'.
pub fn by_scalar(size: u32) -> Contraction {
    let (extents, strides) = ([size, size], [1, size as i32]);
    Contraction::random(("ij", &extents, &strides, 0), ("", &[], &[], 0), ("ij", &extents, &strides, 0))
}

/// ',->'.
pub fn scalars() -> Contraction {
    Contraction::random(("", &[], &[], 0), ("", &[], &[], 0), ("", &[], &[], 0))
}

/// 'ipq,pq->i': 64 outputs, and 4,096 terms each in runs of p that a gap keeps from folding.
pub fn short_depth(run: u32) -> Contraction {
    let runs = 4096 / run;
    let (in_a, in_b) = ([1, 64, 64 * (run as i32 + 1)], [1, run as i32 + 1]);
    Contraction::random(("ipq", &[64, run, runs], &in_a, 0), ("pq", &[run, runs], &in_b, 0), ("i", &[64], &[1], 0))
}

/// 'ijk,k->ij': 4,096 outputs in runs of i that a gap in D keeps from folding, and 64 terms each.
pub fn short_output(run: u32) -> Contraction {
    let runs = 4096 / run;
    let (in_a, in_d) = ([1, run as i32, 4096], [1, run as i32 + 1]);
    Contraction::random(("ijk", &[run, runs, 64], &in_a, 0), ("k", &[64], &[1], 0), ("ij", &[run, runs], &in_d, 0))
}

/// Question 9 refuses it: the words of D meet.
pub fn overlapping(size: u32) -> Contraction {
    let mut matrices = matrices(size, size, size);
    matrices.d.strides = vec![1, 1];
    matrices
}
