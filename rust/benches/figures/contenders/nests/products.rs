//! Products of matrices whose columns lie one after the other: a few columns of D at a time, which share what is read of
//! A. Their sums are held in pieces of consecutive rows, those of the same rows side by side.

use super::{add, put, put_line, Aligned};
use crate::contraction::Contraction;
use std::array::from_fn;

/// The sums of a few columns: by the piece, the column, and the row in the piece.
type Sums<const PIECES: usize, const PIECE: usize, const TOGETHER: usize> = Aligned<[[[u32; PIECE]; TOGETHER]; PIECES]>;

/// 'ik,kj->ij', with PIECES × PIECE rows. TOGETHER divides COLS.
pub fn matrices<
    const PIECES: usize,
    const PIECE: usize,
    const COLS: usize,
    const DEPTH: usize,
    const TOGETHER: usize,
>(
    c: &Contraction,
    d: &mut [u32],
) {
    product::<PIECES, PIECE, COLS, DEPTH, TOGETHER>(c, &c.a.words, &c.b.words, d);
}

/// 'hik,hkj->hij', matrices of 64×64 one after the other.
pub fn batched(c: &Contraction, d: &mut [u32]) {
    let matrices = c.a.words.chunks_exact(64 * 64).zip(c.b.words.chunks_exact(64 * 64));
    for ((a, b), d) in matrices.zip(d.chunks_exact_mut(64 * 64)) {
        product::<4, 16, 64, 64, 4>(c, a, b, d);
    }
}

/// 'abk,kc->abc', two values of a and 128 of b: for each a, a product with 128 rows.
pub fn scattered(c: &Contraction, d: &mut [u32]) {
    for (a, d) in c.a.words.chunks_exact(128 * 256).zip(d.chunks_exact_mut(128 * 256)) {
        product::<8, 16, 256, 256, 4>(c, a, &c.b.words, d);
    }
}

/// A's columns upside down, D with a gap after each word: the sums are upside down too until they are put.
pub fn reversed_into_gaps(c: &Contraction, d: &mut [u32]) {
    for (columns_b, columns_d) in c.b.words.chunks_exact(256 * 4).zip(d.chunks_mut(512 * 4)) {
        let sums = column_sums::<16, 16, 256, 4>(&c.a.words, columns_b);
        for (n, column) in columns_d.chunks_mut(512).enumerate() {
            put_upside_down(c, column, &sums, n);
        }
    }
}

#[inline(always)]
fn put_upside_down(c: &Contraction, column: &mut [u32], sums: &Sums<16, 16, 4>, n: usize) {
    for (piece, sums) in column.chunks_mut(32).zip(sums.0.iter().rev()) {
        for (word, sum) in piece.iter_mut().step_by(2).zip(sums[n].iter().rev()) {
            put(c, word, *sum);
        }
    }
}

/// D's columns become those of the product of two matrices.
#[inline(always)]
pub fn product<
    const PIECES: usize,
    const PIECE: usize,
    const COLS: usize,
    const DEPTH: usize,
    const TOGETHER: usize,
>(
    c: &Contraction,
    a: &[u32],
    b: &[u32],
    d: &mut [u32],
) {
    const { assert!(COLS % TOGETHER == 0, "columns would be left") };
    for j in (0..COLS).step_by(TOGETHER) {
        let sums = column_sums::<PIECES, PIECE, DEPTH, TOGETHER>(a, &b[DEPTH * j..][..DEPTH * TOGETHER]);
        for n in 0..TOGETHER {
            for (piece, sums) in sums.0.iter().enumerate() {
                put_line(c, &mut d[PIECE * (PIECES * (j + n) + piece)..][..PIECE], &sums[n]);
            }
        }
    }
}

/// The sums of a few columns of D: A's columns, each times its words of B's columns.
#[inline(always)]
fn column_sums<const PIECES: usize, const PIECE: usize, const DEPTH: usize, const TOGETHER: usize>(
    a: &[u32],
    columns_b: &[u32],
) -> Sums<PIECES, PIECE, TOGETHER> {
    let mut sums = Aligned([[[0; PIECE]; TOGETHER]; PIECES]);
    for k in 0..DEPTH {
        let by: [u32; TOGETHER] = from_fn(|n| columns_b[DEPTH * n + k]);
        let column_a = &a[PIECES * PIECE * k..][..PIECES * PIECE];
        for (sums, piece) in sums.0.iter_mut().zip(column_a.chunks_exact(PIECE)) {
            add_piece(sums, piece, by);
        }
    }
    sums
}

#[inline(always)]
fn add_piece<const PIECE: usize, const TOGETHER: usize>(
    sums: &mut [[u32; PIECE]; TOGETHER],
    piece: &[u32],
    by: [u32; TOGETHER],
) {
    for n in 0..TOGETHER {
        for i in 0..PIECE {
            sums[n][i] = add(sums[n][i], piece[i], by[n]);
        }
    }
}
