//! D(i,j) = sum over k of A(i,k) × B(k,j) + 2 × D(i,j), for matrices whose columns lie one after the other.

use nezgrak::{Contraction, Layout, Refusal, Tensor};

fn main() -> Result<(), Refusal> {
    let a = Tensor::new(Layout::new(b"ik", &[2, 3], &[1, 2], 0), &[1, 2, 3, 4, 5, 6]);
    let b = Tensor::new(Layout::new(b"kj", &[3, 2], &[1, 3], 0), &[1, 0, 2, 0, 1, 1]);
    let d = Layout::new(b"ij", &[2, 2], &[1, 2], 0);
    let mut words = [100, 200, 300, 400];
    Contraction::new(a, b, d).with_alpha(1).with_beta(2).contract(&mut words)?;
    println!("{words:?}");
    Ok(())
}
