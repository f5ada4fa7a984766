//! Shapes in which a word of A or of B is used once.

use super::products::product;
use super::{add, put};
use crate::contraction::Contraction;

/// 512×1×512, A's rows one after the other.
pub fn lines_of_a(c: &Contraction, d: &mut [u32]) {
    lines_times_vector(c, &c.a.words, &c.b.words, d);
}

/// 1×512×512, B's columns one after the other.
pub fn lines_of_b(c: &Contraction, d: &mut [u32]) {
    lines_times_vector(c, &c.b.words, &c.a.words, d);
}

/// 1×512×512, B's rows one after the other: the sums of all columns are held, and each row is added to them.
pub fn rows_of_b(c: &Contraction, d: &mut [u32]) {
    product::<1, 512, 1, 512, 1>(c, &c.b.words, &c.a.words, d);
}

/// 512 sums along as many lines of 512 words: four lines at a time, which share what is read of the vector.
#[inline(always)]
fn lines_times_vector(c: &Contraction, lines: &[u32], vector: &[u32], d: &mut [u32]) {
    let vector = &vector[..512];
    for (lines, words) in lines.chunks_exact(512 * 4).zip(d.chunks_exact_mut(4)) {
        let mut sums = [0; 4];
        for k in 0..512 {
            for (n, sum) in sums.iter_mut().enumerate() {
                *sum = add(*sum, lines[512 * n + k], vector[k]);
            }
        }
        words.iter_mut().zip(sums).for_each(|(word, sum)| put(c, word, sum));
    }
}

/// 512×512×1, 'i,j->ij': each column is A times alpha × the word of B.
pub fn outer(c: &Contraction, d: &mut [u32]) {
    for (column, by) in d.chunks_exact_mut(512).zip(&c.b.words) {
        put_products(c, column, &c.a.words[..512], *by);
    }
}

/// 512×512×1, 'ij,->ij'.
pub fn by_scalar(c: &Contraction, d: &mut [u32]) {
    put_products(c, &mut d[..512 * 512], &c.a.words[..512 * 512], c.b.words[0]);
}

#[inline(always)]
fn put_products(c: &Contraction, words: &mut [u32], line: &[u32], by: u32) {
    let by = c.alpha.wrapping_mul(by);
    for (word, of_a) in words.iter_mut().zip(line) {
        *word = add(c.beta.wrapping_mul(*word), *of_a, by);
    }
}

/// 512×512 words of each tensor, 'ij,ij->ij'.
pub fn by_elements(c: &Contraction, d: &mut [u32]) {
    for ((word, of_a), of_b) in d.iter_mut().zip(&c.a.words).zip(&c.b.words) {
        put(c, word, of_a.wrapping_mul(*of_b));
    }
}

/// A million terms: the sums of both halves at once.
pub fn dot(c: &Contraction, d: &mut [u32]) {
    const HALF: usize = 500_000;
    let (a, b) = (&c.a.words[..2 * HALF], &c.b.words[..2 * HALF]);
    let mut sums = [0; 2];
    for k in 0..HALF {
        sums = [add(sums[0], a[k], b[k]), add(sums[1], a[HALF + k], b[HALF + k])];
    }
    put(c, &mut d[0], sums[0].wrapping_add(sums[1]));
}
