//! One full tile of 64×64×128 by the engine's own loops: both blocks packed, a column of sums at a time, and the words of
//! D last.

use crate::contraction::{Contraction, TILE};
use nezgrak::TileSizes;
use std::hint::black_box;

/// The compiler can't know the tile's sizes, as the engine can't.
#[inline(never)]
pub fn unknown_sizes(c: &Contraction, d: &mut [u32], work: &mut [u32]) {
    tile(c, black_box(TILE), d, work);
}

/// The same, compiled for these sizes only.
#[inline(never)]
pub fn known_sizes(c: &Contraction, d: &mut [u32], work: &mut [u32]) {
    tile(c, TILE, d, work);
}

#[inline(always)]
fn tile(c: &Contraction, sizes: TileSizes, d: &mut [u32], work: &mut [u32]) {
    let [rows, cols, depth] = [sizes.rows, sizes.cols, sizes.depth].map(|size| size as usize);
    let (a, b) = work.split_at_mut(rows * depth);
    pack(&c.a.words, 1, rows, rows, depth, a);
    pack(&c.b.words, depth, 1, cols, depth, b);
    for column in 0..cols {
        let sums = column_sums(a, b, rows, cols, depth, column);
        for r in 0..rows {
            let word = &mut d[r + rows * column];
            *word = c.beta.wrapping_mul(*word).wrapping_add(c.alpha.wrapping_mul(sums[r]));
        }
    }
}

/// Lane n and depth k at n + width × k.
#[inline(always)]
fn pack(words: &[u32], lane_stride: usize, depth_stride: usize, width: usize, depth: usize, packed: &mut [u32]) {
    for k in 0..depth {
        for n in 0..width {
            packed[n + width * k] = words[n * lane_stride + k * depth_stride];
        }
    }
}

#[inline(always)]
fn column_sums(a: &[u32], b: &[u32], rows: usize, cols: usize, depth: usize, column: usize) -> [u32; 64] {
    let mut sums = [0u32; 64];
    for k in 0..depth {
        let by = b[column + cols * k];
        for r in 0..rows {
            sums[r] = sums[r].wrapping_add(a[r + rows * k].wrapping_mul(by));
        }
    }
    sums
}
