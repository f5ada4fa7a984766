use crate::ffi::Operand;
use crate::Layout;

/// A tensor that is read: a layout, and the words that it addresses.
#[derive(Clone, Copy, Debug)]
pub struct Tensor<'a> {
    /// Which word is which entry.
    pub layout: Layout,
    /// At most 16,777,216 words.
    pub words: &'a [u32],
}

impl<'a> Tensor<'a> {
    /// The tensor of these words.
    #[must_use]
    pub const fn new(layout: Layout, words: &'a [u32]) -> Self {
        Self { layout, words }
    }

    /// What a call takes for a tensor that it only reads.
    pub(crate) const fn operand(&self) -> Operand<'_> {
        Operand { layout: self.layout.as_words(), words: self.words }
    }
}

/// What is contracted: A and B, the layout of D, and the factors. The words of D are lent to each call.
///
/// A contraction may name a fourth tensor, C, by [`with_c()`](Contraction::with_c): its entries then stand where those of
/// D's old words stood, so that one C can serve many contractions.
///
/// [`contract()`](Contraction::contract) contracts A and B into D at once. [`tiles()`](Contraction::tiles) does it tile by
/// tile, and other work can go on in between; [`run_tiles()`](Contraction::run_tiles) and [`state()`](Contraction::state)
/// are its two calls, for callers that keep the count of tiles done themselves.
///
/// Nothing is checked when it is made: each call asks its questions of it ([`Refusal`](crate::Refusal)).
#[derive(Clone, Copy, Debug)]
pub struct Contraction<'a> {
    pub(crate) a: Tensor<'a>,
    pub(crate) b: Tensor<'a>,
    pub(crate) c: Option<Tensor<'a>>,
    pub(crate) d: Layout,
    pub(crate) alpha: u32,
    pub(crate) beta: u32,
}

impl<'a> Contraction<'a> {
    /// D becomes the sum, over every label that it lacks, of A's entry × B's entry: alpha is 1 and beta 0.
    #[must_use]
    pub const fn new(a: Tensor<'a>, b: Tensor<'a>, d: Layout) -> Self {
        Self { a, b, c: None, d, alpha: 1, beta: 0 }
    }

    /// The same with alpha × the sum.
    #[must_use]
    pub const fn with_alpha(self, alpha: u32) -> Self {
        Self { alpha, ..self }
    }

    /// The same with beta × D's old word added, or with beta × C's entry where C is named.
    #[must_use]
    pub const fn with_beta(self, beta: u32) -> Self {
        Self { beta, ..self }
    }

    /// The same with C named: beta × C's entry at the same index takes the place of beta × D's old word.
    ///
    /// C has exactly D's different letters (question 30), in any order, and a layout of its own: its strides may be 0 or let
    /// entries share words, and a letter that it repeats is read on the diagonal. C is only read, and between tile calls it
    /// stays the same, as A and B do.
    ///
    /// ```
    /// use nezgrak::{Contraction, Layout, Tensor};
    ///
    /// let a = Tensor::new(Layout::new(b"ik", &[2, 2], &[1, 2], 0), &[1, 2, 3, 4]);
    /// let b = Tensor::new(Layout::new(b"k", &[2], &[1], 0), &[1, 1]);
    /// // The same start for each i: C's stride there is 0.
    /// let c = Tensor::new(Layout::new(b"i", &[2], &[0], 0), &[10]);
    /// let mut words = [7, 7];
    /// Contraction::new(a, b, Layout::new(b"i", &[2], &[1], 0)).with_beta(3).with_c(c).contract(&mut words)?;
    /// assert_eq!(words, [34, 36]);
    /// # Ok::<(), nezgrak::Refusal>(())
    /// ```
    #[must_use]
    pub const fn with_c(self, c: Tensor<'a>) -> Self {
        Self { c: Some(c), ..self }
    }

    /// The same for C, where it is named.
    pub(crate) fn c_operand(&self) -> Option<Operand<'_>> {
        self.c.as_ref().map(Tensor::operand)
    }
}
