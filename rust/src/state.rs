use crate::{ffi, Contraction, Refusal, TileSizes};

/// How far a word of the output is.
#[derive(Clone, Copy, Debug, PartialEq, Eq, Hash)]
pub enum State {
    /// No panel is done: the word has its old value.
    Old,
    /// Some panels are done.
    Part,
    /// All panels are done: the word has its result.
    Final,
}

impl State {
    /// Reads the number that the archive answers: 0, 1 or 2.
    const fn of(number: u32) -> Self {
        match number {
            0 => Self::Old,
            1 => Self::Part,
            _ => Self::Final,
        }
    }
}

/// A word of the output, by its batch, row and column count ([`TileSizes`] says what these count).
#[derive(Clone, Copy, Debug, PartialEq, Eq, Hash)]
pub struct OutputIndex {
    /// Below the size of the batch group.
    pub batch: u64,
    /// Below the size of the row group.
    pub row: u64,
    /// Below the size of the column group.
    pub column: u64,
}

impl OutputIndex {
    /// The output index of these counts.
    #[must_use]
    pub const fn new(batch: u64, row: u64, column: u64) -> Self {
        Self { batch, row, column }
    }
}

impl Contraction<'_> {
    /// The state of an output index after `done` tiles. Of all slices only the lengths count, and no word is changed.
    ///
    /// # Errors
    ///
    /// The number of the first question that fails: 1 to 10, 12, 13 or 30.
    ///
    /// ```
    /// use nezgrak::{Contraction, Layout, OutputIndex, State, Tensor, TileSizes};
    ///
    /// // A dot product of three terms, in panels of two.
    /// let k = Layout::new(b"k", &[3], &[1], 0);
    /// let dot = Contraction::new(Tensor::new(k, &[1, 2, 3]), Tensor::new(k, &[4, 5, 6]), Layout::scalar(0));
    /// let sizes = TileSizes { rows: 1, cols: 1, depth: 2 };
    /// let after = |done| dot.state(&[0], sizes, done, OutputIndex::new(0, 0, 0));
    /// assert_eq!([after(0)?, after(1)?, after(2)?], [State::Old, State::Part, State::Final]);
    /// assert_eq!(after(3).unwrap_err().number(), 12);
    /// # Ok::<(), nezgrak::Refusal>(())
    /// ```
    pub fn state(&self, d: &[u32], sizes: TileSizes, done: u64, index: OutputIndex) -> Result<State, Refusal> {
        let mut state = 0;
        // SAFETY: as in `contract`; only the answer is written, a variable of this function.
        let number = unsafe {
            ffi::state(
                self.a.operand(),
                self.b.operand(),
                self.c_operand(),
                self.d.as_words(),
                d.as_ptr(),
                d.len(),
                self.alpha,
                self.beta,
                sizes.rows,
                sizes.cols,
                sizes.depth,
                done,
                index.batch,
                index.row,
                index.column,
                &mut state,
            )
        };
        Refusal::done_or(number)?;
        Ok(State::of(state))
    }
}
