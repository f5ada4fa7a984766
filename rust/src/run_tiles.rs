use crate::{ffi, Contraction, Refusal};

/// How much of a contraction one tile holds: so many counts of the row, column and depth group, fewer at the edge.
///
/// A group is a set of labels: the *batch* has those that A, B and D have, the *columns* those of B and D that A lacks,
/// the *rows* all other labels of D, and the *depth* those that D lacks. It counts through the values of its labels, the
/// first one fastest; batch, row and column labels in the order in which D has them, depth labels in A's order, then B's.
#[derive(Clone, Copy, Debug, PartialEq, Eq)]
pub struct TileSizes {
    /// Row counts of a tile: 1 to 64.
    pub rows: u32,
    /// Column counts of a tile: 1 to 64.
    pub cols: u32,
    /// Depth counts of a tile: 1 to 128.
    pub depth: u32,
}

impl TileSizes {
    /// How many words of work a tile needs: rows × depth for its block of A and depth × cols for that of B.
    #[must_use]
    pub const fn work_words(self) -> usize {
        let blocks = (self.rows as usize).saturating_add(self.cols as usize);
        blocks.saturating_mul(self.depth as usize)
    }
}

/// How far the tiles are after a call.
#[derive(Clone, Copy, Debug, PartialEq, Eq)]
pub struct Progress {
    /// The count of tiles done, to be given to the next call.
    pub done: u64,
    /// Whether that is the total.
    pub complete: bool,
}

impl Contraction<'_> {
    /// Runs tiles: the smaller of the budget and what is left after `done`.
    ///
    /// Tiles are numbered from 0, by batch count, column block, panel of depth counts and row block, the last one fastest.
    /// Panel 0 of an output word puts beta × its old value, or beta × C's entry where C is named, + alpha × its part of the
    /// sum; later panels add alpha × theirs. A word that no panel has reached holds its old value, with C too. When all
    /// tiles have run, D is what [`contract()`](Contraction::contract) leaves. [`state()`](Contraction::state) says which
    /// words are old, partly summed or final until then. Between calls only the budget and `work` may change.
    ///
    /// `work` holds the packed blocks of the last tile run: A's row r and depth d at r + rows × d, from rows × depth on
    /// B's column c and depth d at c + cols × d, and 0 past an edge. The rest of it is unchanged, and all of it where no
    /// tile ran.
    ///
    /// # Errors
    ///
    /// The number of the first question that fails, 1 to 12 or 30; D and work are then unchanged.
    ///
    /// ```
    /// use nezgrak::{Contraction, Layout, Progress, Tensor, TileSizes};
    ///
    /// let a = Tensor::new(Layout::new(b"ik", &[2, 3], &[1, 2], 0), &[1, 2, 3, 4, 5, 6]);
    /// let b = Tensor::new(Layout::new(b"kj", &[3, 2], &[1, 3], 0), &[1, 0, 2, 0, 1, 1]);
    /// let d = Layout::new(b"ij", &[2, 2], &[1, 2], 0);
    /// let contraction = Contraction::new(a, b, d).with_beta(2);
    /// let sizes = TileSizes { rows: 1, cols: 1, depth: 2 };
    /// let (mut words, mut work) = ([100, 200, 300, 400], [0; 4]);
    ///
    /// let first = contraction.run_tiles(&mut words, sizes, &mut work, 0, 3)?;
    /// assert_eq!(first, Progress { done: 3, complete: false });
    /// assert_eq!(words, [211, 402, 300, 400]);
    /// assert_eq!(work, [5, 0, 2, 0]);
    ///
    /// let rest = contraction.run_tiles(&mut words, sizes, &mut work, first.done, u64::MAX)?;
    /// assert_eq!(rest, Progress { done: 8, complete: true });
    /// assert_eq!(words, [211, 414, 608, 810]);
    /// # Ok::<(), nezgrak::Refusal>(())
    /// ```
    pub fn run_tiles(
        &self,
        d: &mut [u32],
        sizes: TileSizes,
        work: &mut [u32],
        done: u64,
        budget: u64,
    ) -> Result<Progress, Refusal> {
        let (mut done_after, mut complete) = (done, 0);
        // SAFETY: as in `contract`; D and work are lent by `&mut` and the two answers are variables of this function, so
        // that nothing that is written shares a word with anything else that is passed.
        let number = unsafe {
            ffi::run_tiles(
                self.a.operand(),
                self.b.operand(),
                self.c_operand(),
                self.d.as_words(),
                d.as_mut_ptr(),
                d.len(),
                self.alpha,
                self.beta,
                sizes.rows,
                sizes.cols,
                sizes.depth,
                work.as_mut_ptr(),
                work.len(),
                done,
                budget,
                &mut done_after,
                &mut complete,
            )
        };
        Refusal::done_or(number)?;
        Ok(Progress { done: done_after, complete: complete == 1 })
    }
}
