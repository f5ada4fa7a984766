//! Square matrices of about 10^5 to 10^9 multiply-adds.

use super::contest::Case;
use crate::clock::Pace;
use crate::contenders::nests::{matrices, Nest};
use crate::shapes;

pub fn all() -> Vec<Case> {
    vec![
        square("46×46×46", 46, matrices::<1, 46, 46, 46, 1>, Pace { turns: 200, repeats: 20 }),
        square("100×100×100", 100, matrices::<5, 20, 100, 100, 4>, Pace { turns: 200, repeats: 2 }),
        square("215×215×215", 215, matrices::<1, 215, 215, 215, 1>, Pace { turns: 100, repeats: 1 }),
        square("464×464×464", 464, matrices::<29, 16, 464, 464, 4>, Pace { turns: 25, repeats: 1 }),
        square("1000×1000×1000", 1000, matrices::<50, 20, 1000, 1000, 4>, Pace { turns: 4, repeats: 1 }),
    ]
}

fn square(name: &'static str, size: u32, nest: Nest, pace: Pace) -> Case {
    Case::new(name, shapes::matrices(size, size, size), nest, pace)
}
