//! The archive that is measured, and the one before where `make bench BEFORE=ARCHIVE` names one. Both are called in the
//! same way, by pointers and lengths, so that the archives are all that differs.

use crate::contraction::{Contraction, TILE};
use nezgrak::{Layout, TileSizes};

/// A contraction as an archive takes it. The layouts of A, B and D are made once, and not at every call.
pub struct Lent<'a> {
    pub contraction: &'a Contraction,
    layouts: [Layout; 3],
}

impl<'a> Lent<'a> {
    pub fn of(contraction: &'a Contraction) -> Self {
        let Contraction { a, b, d, .. } = contraction;
        Self { contraction, layouts: [a, b, d].map(|tensor| tensor.layout()) }
    }
}

/// The number that a call answers, the count of tiles done, and 1 where that is the total.
type Answer = (u32, u64, u32);

#[derive(Clone, Copy)]
pub struct Engine {
    contract: fn(&Lent<'_>, &mut [u32]) -> u32,
    contract_with_c: fn(&Lent<'_>, &[u32], &mut [u32]) -> u32,
    run_tiles: fn(&Lent<'_>, &mut [u32], TileSizes, &mut [u32], u64) -> Answer,
}

impl Engine {
    /// The plain engine.
    pub fn contract(&self, lent: &Lent<'_>, d: &mut [u32]) {
        assert_eq!((self.contract)(lent, d), 0, "an accepted contraction");
    }

    /// The plain engine with a tensor C that has D's layout.
    pub fn contract_with_c(&self, lent: &Lent<'_>, c: &[u32], d: &mut [u32]) {
        assert_eq!((self.contract_with_c)(lent, c, d), 0, "an accepted contraction");
    }

    /// The tiled engine, all tiles in one call.
    pub fn contract_tiled(&self, lent: &Lent<'_>, d: &mut [u32], work: &mut [u32]) {
        let (refused, _, complete) = (self.run_tiles)(lent, d, TILE, work, u64::MAX);
        assert_eq!((refused, complete), (0, 1), "an accepted contraction, and all its tiles");
    }

    /// The first tile alone.
    pub fn run_first(&self, lent: &Lent<'_>, d: &mut [u32], sizes: TileSizes, work: &mut [u32]) {
        let (refused, done, _) = (self.run_tiles)(lent, d, sizes, work, 1);
        assert_eq!((refused, done), (0, 1), "an accepted contraction, and one tile of it");
    }
}

type Words = [u32; 28];

/// The engine of the archive whose calls have these names.
macro_rules! engine {
    ($contract:ident, $contract_with_c:ident, $run_tiles:ident) => {{
        extern "C" {
            fn $contract(
                a_layout: *const Words, a: *const u32, a_count: usize,
                b_layout: *const Words, b: *const u32, b_count: usize,
                d_layout: *const Words, d: *mut u32, d_count: usize,
                alpha: u32, beta: u32,
            ) -> u32;

            fn $contract_with_c(
                a_layout: *const Words, a: *const u32, a_count: usize,
                b_layout: *const Words, b: *const u32, b_count: usize,
                c_layout: *const Words, c: *const u32, c_count: usize,
                d_layout: *const Words, d: *mut u32, d_count: usize,
                alpha: u32, beta: u32,
            ) -> u32;

            fn $run_tiles(
                a_layout: *const Words, a: *const u32, a_count: usize,
                b_layout: *const Words, b: *const u32, b_count: usize,
                d_layout: *const Words, d: *mut u32, d_count: usize,
                alpha: u32, beta: u32, rows: u32, cols: u32, depth: u32,
                work: *mut u32, work_count: usize, done: u64, budget: u64, done_after: *mut u64, complete: *mut u32,
            ) -> u32;
        }

        // SAFETY, of all calls: a layout has 28 words, each other pointer and length are those of one slice, and what is
        // written is lent by `&mut` or is a variable here.
        Engine {
            contract: |lent, d| {
                let Contraction { a, b, alpha, beta, .. } = lent.contraction;
                let ([of_a, of_b, of_d], a, b) = (lent.layouts.each_ref().map(Layout::as_words), &a.words, &b.words);
                unsafe {
                    $contract(
                        of_a, a.as_ptr(), a.len(), of_b, b.as_ptr(), b.len(), of_d, d.as_mut_ptr(), d.len(),
                        *alpha, *beta,
                    )
                }
            },
            contract_with_c: |lent, c, d| {
                let Contraction { a, b, alpha, beta, .. } = lent.contraction;
                let ([of_a, of_b, of_d], a, b) = (lent.layouts.each_ref().map(Layout::as_words), &a.words, &b.words);
                unsafe {
                    $contract_with_c(
                        of_a, a.as_ptr(), a.len(), of_b, b.as_ptr(), b.len(), of_d, c.as_ptr(), c.len(),
                        of_d, d.as_mut_ptr(), d.len(), *alpha, *beta,
                    )
                }
            },
            run_tiles: |lent, d, sizes, work, budget| {
                let Contraction { a, b, alpha, beta, .. } = lent.contraction;
                let ([of_a, of_b, of_d], a, b) = (lent.layouts.each_ref().map(Layout::as_words), &a.words, &b.words);
                let (mut done, mut complete) = (0, 0);
                let refused = unsafe {
                    $run_tiles(
                        of_a, a.as_ptr(), a.len(), of_b, b.as_ptr(), b.len(), of_d, d.as_mut_ptr(), d.len(),
                        *alpha, *beta, sizes.rows, sizes.cols, sizes.depth,
                        work.as_mut_ptr(), work.len(), 0, budget, &mut done, &mut complete,
                    )
                };
                (refused, done, complete)
            },
        }
    }};
}

pub fn now() -> Engine {
    engine!(nezgrak_contract, nezgrak_contract_with_c, nezgrak_run_tiles)
}

/// The archive before, whose calls the build script gave other names.
#[cfg(nezgrak_before)]
pub fn before() -> Option<Engine> {
    Some(engine!(before_nezgrak_contract, before_nezgrak_contract_with_c, before_nezgrak_run_tiles))
}

#[cfg(not(nezgrak_before))]
pub fn before() -> Option<Engine> {
    None
}
