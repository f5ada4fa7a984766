use crate::{ffi, Contraction, Refusal};

impl Contraction<'_> {
    /// Contracts A and B into D by a direct sum.
    ///
    /// Each word that D's layout addresses becomes beta × its old value + alpha × the sum, over every label that D lacks,
    /// of A's entry × B's entry. Where C is named, beta × C's entry stands for beta × the old value. A tensor that lacks a
    /// label has the same entry at each of its values. Sums and products are taken modulo 2^32. The words of D's slice that
    /// its layout does not address keep their values.
    ///
    /// # Errors
    ///
    /// The number of the first question that fails; D is then unchanged. Nothing that a layout can hold makes the call
    /// panic or reach outside the slices.
    ///
    /// ```
    /// use nezgrak::{Contraction, Layout, Tensor};
    ///
    /// // The trace of a matrix: A's two letters are one label, which D lacks.
    /// let matrix = Tensor::new(Layout::new(b"ii", &[2, 2], &[1, 2], 0), &[1, 2, 3, 4]);
    /// let one = Tensor::new(Layout::scalar(0), &[1]);
    /// let mut sum = [0];
    /// Contraction::new(matrix, one, Layout::scalar(0)).contract(&mut sum)?;
    /// assert_eq!(sum, [5]);
    /// # Ok::<(), nezgrak::Refusal>(())
    /// ```
    pub fn contract(&self, d: &mut [u32]) -> Result<(), Refusal> {
        // SAFETY: each layout is an array of 28 words; each other pointer and length are those of one slice, so the
        // pointer is aligned and not null, also where the length is 0, and the words are there. D's are lent by `&mut`,
        // so nothing else that is passed shares one. The archive keeps no pointer, and is proved to read and write inside
        // the slices only, whatever the layouts hold.
        let number = unsafe {
            ffi::contract(
                self.a.operand(),
                self.b.operand(),
                self.c_operand(),
                self.d.as_words(),
                d.as_mut_ptr(),
                d.len(),
                self.alpha,
                self.beta,
            )
        };
        Refusal::done_or(number)
    }
}
