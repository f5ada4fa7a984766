//! 'abk,kcd->abcd' with A stored as bka, B as dkc and D as cadb: for each a and four values of c, the sums of all b and d.
//! They are formed by two values of b and two of k at a time, which share what is read, and those of the four values of c
//! are put side by side.

use super::{add, put, Aligned};
use crate::contraction::Contraction;
use std::array::from_fn;

/// How many values of c there are at a time.
const TOGETHER: usize = 4;

/// By b and d.
type Sums = Aligned<[[u32; 32]; 16]>;

pub fn permuted(c: &Contraction, d: &mut [u32]) {
    for (at_a, of_a) in c.a.words.chunks_exact(16 * 256).enumerate() {
        for (n, of_b) in c.b.words.chunks_exact(TOGETHER * 32 * 256).enumerate() {
            let sums: [Sums; TOGETHER] = from_fn(|at_c| sums(of_a, &of_b[32 * 256 * at_c..][..32 * 256]));
            put_together(c, &mut d[16 * at_a + TOGETHER * n..], &sums);
        }
    }
}

#[inline(always)]
fn sums(a: &[u32], b: &[u32]) -> Sums {
    let mut held = Aligned([[0; 32]; 16]);
    for (lines_a, lines_b) in a.chunks_exact(2 * 16).zip(b.chunks_exact(2 * 32)) {
        for (n, sums) in held.0.chunks_exact_mut(2).enumerate() {
            let by = [0, 1].map(|b| [0, 1].map(|k| lines_a[16 * k + 2 * n + b]));
            add_lines(sums, lines_b, by);
        }
    }
    held
}

/// The lines of two values of k, each times its words of A: to the sums of two values of b.
#[inline(always)]
fn add_lines(sums: &mut [[u32; 32]], lines: &[u32], by: [[u32; 2]; 2]) {
    for d in 0..32 {
        for b in 0..2 {
            sums[b][d] = add(add(sums[b][d], lines[d], by[b][0]), lines[32 + d], by[b][1]);
        }
    }
}

#[inline(always)]
fn put_together(c: &Contraction, words: &mut [u32], sums: &[Sums; TOGETHER]) {
    for b in 0..16 {
        for d in 0..32 {
            for (at_c, sums) in sums.iter().enumerate() {
                put(c, &mut words[16384 * b + 512 * d + at_c], sums.0[b][d]);
            }
        }
    }
}
