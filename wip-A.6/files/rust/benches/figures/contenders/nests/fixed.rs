//! Products of matrices in fixed point, by the loops of `products`: four columns of D at a time, in pieces of consecutive
//! rows. A word of D is rounded once, from its exact sum. The forms differ in how they hold the sums.

use super::{Aligned, Nest};
use crate::contraction::{Contraction, SHIFT};
use std::array::from_fn;

/// How many columns of D there are at a time, and how many rows a piece has.
const TOGETHER: usize = 4;
const ROWS: usize = 16;

/// What each form holds, in the order of `forms`.
pub const HELD: [&str; 3] = ["sums of 64 bits", "sums in two parts", "sums as doubles"];

/// 'ik,kj->ij' in each form, with so many pieces of rows.
pub fn forms<const PIECES: usize, const COLS: usize, const DEPTH: usize>() -> [Nest; 3] {
    const { assert!(COLS % TOGETHER == 0, "columns would be left") };
    [
        matrices::<[i64; ROWS], PIECES, COLS, DEPTH>,
        matrices::<Parts, PIECES, COLS, DEPTH>,
        matrices::<[f64; ROWS], PIECES, COLS, DEPTH>,
    ]
}

/// The exact sums of a piece of a column.
trait Piece: Copy {
    const NONE: Self;

    /// A piece of a column of A times a word of B.
    fn add(&mut self, line: &[u32], by: u32);

    fn sum(&self, row: usize) -> i64;
}

/// A product is at most 2^30.
impl Piece for [i64; ROWS] {
    const NONE: Self = [0; ROWS];

    #[inline(always)]
    fn add(&mut self, line: &[u32], by: u32) {
        for (sum, word) in self.iter_mut().zip(line) {
            *sum += i64::from(*word as i32 * by as i32);
        }
    }

    #[inline(always)]
    fn sum(&self, row: usize) -> i64 {
        self[row]
    }
}

/// A double holds every whole number below 2^53, and no sum that is accepted passes 2^46.
impl Piece for [f64; ROWS] {
    const NONE: Self = [0.0; ROWS];

    #[inline(always)]
    fn add(&mut self, line: &[u32], by: u32) {
        for (sum, word) in self.iter_mut().zip(line) {
            *sum += f64::from(*word as i32) * f64::from(by as i32);
        }
    }

    #[inline(always)]
    fn sum(&self, row: usize) -> i64 {
        self[row] as i64
    }
}

/// Sums of the products modulo 2^32, and of their high halves. What the low halves add up to is the difference, which is
/// below 2^32 where the depth is at most 65,536.
#[derive(Clone, Copy)]
struct Parts {
    whole: [u32; ROWS],
    high: [i32; ROWS],
}

impl Piece for Parts {
    const NONE: Self = Self { whole: [0; ROWS], high: [0; ROWS] };

    #[inline(always)]
    fn add(&mut self, line: &[u32], by: u32) {
        for (row, word) in line[..ROWS].iter().enumerate() {
            let product = word.wrapping_mul(by);
            self.whole[row] = self.whole[row].wrapping_add(product);
            self.high[row] += product as i32 >> 16;
        }
    }

    #[inline(always)]
    fn sum(&self, row: usize) -> i64 {
        let high = i64::from(self.high[row]) << 16;
        high + i64::from(self.whole[row].wrapping_sub(high as u32))
    }
}

/// With PIECES × ROWS rows.
fn matrices<P: Piece, const PIECES: usize, const COLS: usize, const DEPTH: usize>(c: &Contraction, d: &mut [u32]) {
    let columns_b = c.b.words[..DEPTH * COLS].chunks_exact(DEPTH * TOGETHER);
    for (columns_b, columns_d) in columns_b.zip(d.chunks_exact_mut(PIECES * ROWS * TOGETHER)) {
        let sums = column_sums::<P, PIECES, DEPTH>(&c.a.words, columns_b);
        for (n, column) in columns_d.chunks_exact_mut(PIECES * ROWS).enumerate() {
            for (words, sums) in column.chunks_exact_mut(ROWS).zip(&sums.0) {
                words.iter_mut().enumerate().for_each(|(row, word)| put(word, sums[n].sum(row)));
            }
        }
    }
}

/// The sums of four columns of D, those of the same rows side by side.
#[inline(always)]
fn column_sums<P: Piece, const PIECES: usize, const DEPTH: usize>(
    a: &[u32],
    columns_b: &[u32],
) -> Aligned<[[P; TOGETHER]; PIECES]> {
    let mut sums = Aligned([[P::NONE; TOGETHER]; PIECES]);
    for (k, column_a) in a.chunks_exact(PIECES * ROWS).take(DEPTH).enumerate() {
        let by: [u32; TOGETHER] = from_fn(|n| columns_b[DEPTH * n + k]);
        for (sums, line) in sums.0.iter_mut().zip(column_a.chunks_exact(ROWS)) {
            sums.iter_mut().zip(by).for_each(|(sums, by)| sums.add(line, by));
        }
    }
    sums
}

/// The old value plus the sum / 2^SHIFT, which is rounded to nearest, ties to even; held at the ends of 32 bits.
#[inline(always)]
fn put(word: &mut u32, sum: i64) {
    let odd = (sum >> SHIFT) & 1;
    let rounded = (sum + (1 << (SHIFT - 1)) - 1 + odd) >> SHIFT;
    *word = (i64::from(*word as i32) + rounded).clamp(i32::MIN.into(), i32::MAX.into()) as u32;
}
