//! The archive's calls on lent memory. Each fails where the call changed anything that it may only read, or a guard word.

use crate::common::call::run_flat;
use crate::common::case::{Case, Outcome};
use crate::common::guard::Guarded;
use crate::common::lent::Lent;
use crate::common::request::{Ran, Request};
use crate::common::rng::Rng;
use crate::common::tile_call::{ask_lent, run_lent};

/// Lends a contraction. Its words stand at any place modulo 16 bytes.
pub fn lend(case: &Case, rng: &mut Rng) -> Lent {
    Lent::shifted(case, [0; 4].map(|_| rng.below(4)))
}

pub fn contract(lent: &mut Lent, case: &Case) -> Outcome {
    run_flat(lent, case)
}

pub fn run_tiles(lent: &mut Lent, r: &Request, rng: &mut Rng) -> Ran {
    run_lent(lent, r, Guarded::shifted(&r.work, rng.below(4)), rng.next(), rng.word())
}

/// Old 0, part 1 or final 2, or the number that refused.
pub fn state(lent: &Lent, r: &Request, rng: &mut Rng) -> Result<u32, u32> {
    ask_lent(lent, r, rng.word())
}
