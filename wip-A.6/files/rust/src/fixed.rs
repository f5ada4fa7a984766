use crate::{ffi, Contraction, OutputIndex, Progress, Refusal, State, TileSizes};

/// In fixed point. The words of A and B are read as signed, from -32,768 to 32,767; alpha and beta count as 1; and a C that
/// the contraction names is neither read nor asked about.
impl Contraction<'_> {
    /// Contracts A and B into D by a direct sum, in fixed point.
    ///
    /// Each word that D's layout addresses becomes its old value, read as signed, plus the sum, over every label that D
    /// lacks, of A's entry × B's entry, divided by 2^shift and rounded to nearest, ties to even. Only the sum is divided.
    /// The whole is held at the ends of the signed 32-bit range: below -2^31 it becomes -2^31, and above 2^31 - 1 that. The
    /// sum is exact. The words of D's slice that its layout does not address keep their values.
    ///
    /// # Errors
    ///
    /// The number of the first question that fails, 1 to 9, 34 or 35; D is then unchanged.
    ///
    /// ```
    /// use nezgrak::{Contraction, Layout, Tensor};
    ///
    /// // Weights with 7 fraction bits: 0.5, -1 and 0.25.
    /// let k = Layout::new(b"k", &[3], &[1], 0);
    /// let weights = [64, -128, 32].map(|weight: i32| weight as u32);
    /// let (a, b) = (Tensor::new(k, &[9, 4, 6]), Tensor::new(k, &weights));
    /// let mut score = [10];
    /// // 10 + (4.5 - 4 + 1.5)
    /// Contraction::new(a, b, Layout::scalar(0)).contract_fixed(&mut score, 7)?;
    /// assert_eq!(score, [12]);
    /// # Ok::<(), nezgrak::Refusal>(())
    /// ```
    pub fn contract_fixed(&self, d: &mut [u32], shift: u32) -> Result<(), Refusal> {
        // SAFETY: as in `contract`.
        let number = unsafe {
            ffi::contract_fixed(self.a.operand(), self.b.operand(), self.d.as_words(), d.as_mut_ptr(), d.len(), shift)
        };
        Refusal::done_or(number)
    }

    /// Runs tiles in fixed point: the smaller of the budget and what is left after `done`.
    ///
    /// Tiles, panels and `work` are those of [`run_tiles()`](Contraction::run_tiles). The sum of a word of D is kept in
    /// `sums` at the same place: panel 0 starts it from 0, whatever stood there, and each panel adds its part modulo 2^64.
    /// The word of D keeps its old value until its last panel is done, and then becomes what
    /// [`contract_fixed()`](Contraction::contract_fixed) makes of it; the sum stays. All other places of `sums` are
    /// unchanged. Between calls only the budget and `work` may change, and the sums are passed on as they were left. Where
    /// that is so, no sum passes 64 bits.
    ///
    /// # Errors
    ///
    /// The number of the first question that fails, 1 to 12 or 33 to 35; D, work and sums are then unchanged.
    ///
    /// ```
    /// use nezgrak::{Contraction, Layout, Progress, Tensor, TileSizes};
    ///
    /// let k = Layout::new(b"k", &[3], &[1], 0);
    /// let weights = [64, -128, 32].map(|weight: i32| weight as u32);
    /// let dot = Contraction::new(Tensor::new(k, &[9, 4, 6]), Tensor::new(k, &weights), Layout::scalar(0));
    /// let sizes = TileSizes { rows: 1, cols: 1, depth: 2 };
    /// let (mut score, mut work, mut sums) = ([10], [0; 4], [-1]);
    ///
    /// let first = dot.run_tiles_fixed(&mut score, 7, sizes, &mut work, &mut sums, 0, 1)?;
    /// assert_eq!(first, Progress { done: 1, complete: false });
    /// assert_eq!((score, sums), ([10], [9 * 64 - 4 * 128]));
    ///
    /// let rest = dot.run_tiles_fixed(&mut score, 7, sizes, &mut work, &mut sums, first.done, 1)?;
    /// assert_eq!(rest, Progress { done: 2, complete: true });
    /// assert_eq!((score, sums), ([12], [256]));
    /// # Ok::<(), nezgrak::Refusal>(())
    /// ```
    #[allow(clippy::too_many_arguments)] // Each is one of the call's.
    pub fn run_tiles_fixed(
        &self,
        d: &mut [u32],
        shift: u32,
        sizes: TileSizes,
        work: &mut [u32],
        sums: &mut [i64],
        done: u64,
        budget: u64,
    ) -> Result<Progress, Refusal> {
        let (mut done_after, mut complete) = (done, 0);
        // SAFETY: as in `run_tiles`; the sums too are lent by `&mut`.
        let number = unsafe {
            ffi::run_tiles_fixed(
                self.a.operand(),
                self.b.operand(),
                self.d.as_words(),
                d.as_mut_ptr(),
                d.len(),
                shift,
                sizes.rows,
                sizes.cols,
                sizes.depth,
                work.as_mut_ptr(),
                work.len(),
                sums.as_mut_ptr(),
                sums.len(),
                done,
                budget,
                &mut done_after,
                &mut complete,
            )
        };
        Refusal::done_or(number)?;
        Ok(Progress { done: done_after, complete: complete == 1 })
    }

    /// The state of an output index after `done` tiles in fixed point: that of [`state()`](Contraction::state) without C.
    /// Neither the shift nor the sums nor the words of A and B are asked about.
    ///
    /// # Errors
    ///
    /// The number of the first question that fails: 1 to 10, 12 or 13.
    pub fn state_fixed(&self, d: &[u32], sizes: TileSizes, done: u64, index: OutputIndex) -> Result<State, Refusal> {
        self.without_c().state(d, sizes, done, index)
    }

    /// The same without C.
    pub(crate) const fn without_c(self) -> Self {
        Self { c: None, ..self }
    }
}
