//! One noise floor for two recordings: D(i,j) = sum over k of A(i,k) × B(k,j) + 2 × C(i,j), where A is the spectrogram of
//! a recording, B has the weights of each species j, and C its floor, the same at each time i by a stride of 0.

use nezgrak::{Contraction, Layout, Refusal, Tensor};

fn main() -> Result<(), Refusal> {
    let spectrogram = Layout::new(b"ik", &[2, 3], &[1, 2], 0);
    let b = Tensor::new(Layout::new(b"kj", &[3, 2], &[1, 3], 0), &[1, 0, 2, 0, 1, 1]);
    let c = Tensor::new(Layout::new(b"ij", &[2, 2], &[0, 1], 0), &[10, 20]);
    let d = Layout::new(b"ij", &[2, 2], &[1, 2], 0);
    for recording in [[1, 2, 3, 4, 5, 6], [6, 5, 4, 3, 2, 1]] {
        let a = Tensor::new(spectrogram, &recording);
        let mut words = [0; 4];
        Contraction::new(a, b, d).with_alpha(1).with_beta(2).with_c(c).contract(&mut words)?;
        println!("{words:?}");
    }
    Ok(())
}
