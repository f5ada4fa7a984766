//! One loop nest for each shape: the extents and strides are constants, and the innermost loop is one that vectorises.
//! Sums are held in local arrays and put into D at the end. No packing. docs/PERFORMANCE.md has what else was tried.

mod permuted;
mod products;
mod thin;

use crate::contraction::Contraction;

pub use permuted::permuted;
pub use products::{batched, matrices, reversed_into_gaps, scattered};
pub use thin::{by_elements, by_scalar, dot, lines_of_a, lines_of_b, outer, rows_of_b};

pub type Nest = fn(&Contraction, &mut [u32]);

/// Sums that begin where a line of the cache does. Where an array begins is otherwise up to the compiler, and a read of 16
/// bytes that has parts in two lines takes longer.
#[repr(align(64))]
struct Aligned<T>(T);

#[inline(always)]
fn add(sum: u32, one: u32, other: u32) -> u32 {
    sum.wrapping_add(one.wrapping_mul(other))
}

#[inline(always)]
fn put(c: &Contraction, word: &mut u32, sum: u32) {
    *word = c.beta.wrapping_mul(*word).wrapping_add(c.alpha.wrapping_mul(sum));
}

/// Consecutive words.
#[inline(always)]
fn put_line(c: &Contraction, line: &mut [u32], sums: &[u32]) {
    for (word, sum) in line.iter_mut().zip(sums) {
        put(c, word, *sum);
    }
}
