//! D(i,j) = sum over k of A(i,k) × B(k,j) + 2 × D(i,j), tile by tile: three tiles, then the rest. Prints D's words and
//! their states.

use nezgrak::{Contraction, Layout, OutputIndex, Refusal, State, Tensor, TileSizes, Tiles};

fn main() -> Result<(), Refusal> {
    let a = Tensor::new(Layout::new(b"ik", &[2, 3], &[1, 2], 0), &[1, 2, 3, 4, 5, 6]);
    let b = Tensor::new(Layout::new(b"kj", &[3, 2], &[1, 3], 0), &[1, 0, 2, 0, 1, 1]);
    let d = Layout::new(b"ij", &[2, 2], &[1, 2], 0);
    let contraction = Contraction::new(a, b, d).with_alpha(1).with_beta(2);
    let sizes = TileSizes { rows: 1, cols: 1, depth: 2 };
    let (mut words, mut work) = ([100, 200, 300, 400], [0; 4]);
    let mut tiles = contraction.tiles(&mut words, sizes, &mut work)?;
    for budget in [3, u64::MAX] {
        tiles.step(budget)?;
        print(&tiles)?;
    }
    Ok(())
}

fn print(tiles: &Tiles<'_>) -> Result<(), Refusal> {
    print!("{} tiles done{}:", tiles.done(), if tiles.is_complete() { ", complete" } else { "" });
    for (n, word) in (0..).zip(tiles.words()) {
        let state = match tiles.state(OutputIndex::new(0, n % 2, n / 2))? {
            State::Old => "old",
            State::Part => "part",
            State::Final => "final",
        };
        print!(" {word} {state}");
    }
    println!();
    Ok(())
}
