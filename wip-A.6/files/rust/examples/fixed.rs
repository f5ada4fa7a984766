//! Weights with 7 fraction bits: D(i,j) = D(i,j) + sum over k of A(i,k) × B(k,j) / 2^7, the quotient rounded. Three tiles,
//! then the rest. Prints D's words and sums.

use nezgrak::{Contraction, Layout, Refusal, Tensor, TileSizes, Tiles};

const FRACTION_BITS: u32 = 7;

fn main() -> Result<(), Refusal> {
    // The weights are 0.5, -1 and 0.25 for one species, and 1.5, 0.125 and -0.375 for the other.
    let [a, weights] =
        [[9, 4, 6, -5, 2, 7], [64, -128, 32, 192, 16, -48]].map(|of| of.map(|number: i32| number as u32));
    let a = Tensor::new(Layout::new(b"ik", &[2, 3], &[1, 2], 0), &a);
    let b = Tensor::new(Layout::new(b"kj", &[3, 2], &[1, 3], 0), &weights);
    let contraction = Contraction::new(a, b, Layout::new(b"ij", &[2, 2], &[1, 2], 0));
    let sizes = TileSizes { rows: 1, cols: 1, depth: 2 };
    let (mut words, mut work, mut sums) = ([10, 20, 30, 40], [0; 4], [0; 4]);
    let mut tiles = contraction.tiles_fixed(&mut words, FRACTION_BITS, sizes, &mut work, &mut sums)?;
    for budget in [3, u64::MAX] {
        tiles.step(budget)?;
        print(&tiles);
    }
    Ok(())
}

fn print(tiles: &Tiles<'_>) {
    print!("{} tiles done{}:", tiles.done(), if tiles.is_complete() { ", complete" } else { "" });
    for (word, sum) in tiles.words().iter().zip(tiles.sums()) {
        print!(" {} (sum {sum})", *word as i32);
    }
    println!();
}
