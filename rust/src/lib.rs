//! Safe calls of Nezgrak, a tensor contraction engine for 32-bit words.
//!
//! The engine is written in Rattle, and each of its functions is proved to do what a short definition says. This crate
//! links its archive and computes no word itself: it turns layouts and slices into the pointers and lengths that the
//! archive takes, and the number that comes back into a [`Result`].
//!
//! A [`Tensor`] is a slice of words with a [`Layout`] that says which word is which entry. A [`Contraction`] has two that
//! are read, A and B, and the layout of D, whose words are lent to each call: [`contract()`](Contraction::contract) sums
//! at once, and [`tiles()`](Contraction::tiles) tile by tile, with time for other work in between. What a sum starts from
//! is D's old word, or the entry of a third tensor that is read, C, by [`with_c()`](Contraction::with_c).
//!
//! [`delay()`] finds by how many samples one recording is later than another.
//!
//! ```
//! use nezgrak::{Contraction, Layout, Tensor};
//!
//! // D(i,j) becomes 1 × the sum over k of A(i,k) × B(k,j), plus 2 × D(i,j).
//! let a = Tensor::new(Layout::new(b"ik", &[2, 3], &[1, 2], 0), &[1, 2, 3, 4, 5, 6]);
//! let b = Tensor::new(Layout::new(b"kj", &[3, 2], &[1, 3], 0), &[1, 0, 2, 0, 1, 1]);
//! let d = Layout::new(b"ij", &[2, 2], &[1, 2], 0);
//! let mut words = [100, 200, 300, 400];
//! Contraction::new(a, b, d).with_alpha(1).with_beta(2).contract(&mut words)?;
//! assert_eq!(words, [211, 414, 608, 810]);
//!
//! // With C(i,j) in place of the old D(i,j): 10 where j is 0 and 20 where it is 1, for each i.
//! let c = Tensor::new(Layout::new(b"ij", &[2, 2], &[0, 1], 0), &[10, 20]);
//! Contraction::new(a, b, d).with_beta(2).with_c(c).contract(&mut words)?;
//! assert_eq!(words, [31, 34, 48, 50]);
//! # Ok::<(), nezgrak::Refusal>(())
//! ```

#![no_std]
#![deny(missing_docs)]

mod contract;
mod contraction;
mod delay;
mod ffi;
mod layout;
mod refusal;
mod run_tiles;
mod state;
mod tiles;

pub use contraction::{Contraction, Tensor};
pub use delay::{delay, Delay};
pub use layout::Layout;
pub use refusal::Refusal;
pub use run_tiles::{Progress, TileSizes};
pub use state::{OutputIndex, State};
pub use tiles::Tiles;
