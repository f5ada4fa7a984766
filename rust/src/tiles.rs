use crate::{Contraction, OutputIndex, Progress, Refusal, State, TileSizes};

/// A contraction that is run tile by tile: everything it needs, and the count of tiles done.
/// [`Contraction::tiles`] makes it.
///
/// [`step`](Tiles::step) runs up to a budget of tiles and returns, so that a device can contract while it waits for its
/// next input; between steps the words of D and the state of each can be read. As an iterator it runs one tile for each
/// [`next`](Iterator::next), or the budget that [`with_budget`](Tiles::with_budget) sets, until all are done.
///
/// ```
/// use nezgrak::{Contraction, Layout, OutputIndex, State, Tensor, TileSizes};
///
/// let a = Tensor::new(Layout::new(b"ik", &[2, 3], &[1, 2], 0), &[1, 2, 3, 4, 5, 6]);
/// let b = Tensor::new(Layout::new(b"kj", &[3, 2], &[1, 3], 0), &[1, 0, 2, 0, 1, 1]);
/// let d = Layout::new(b"ij", &[2, 2], &[1, 2], 0);
/// let sizes = TileSizes { rows: 1, cols: 1, depth: 2 };
/// let (mut words, mut work) = ([100, 200, 300, 400], [0; 4]);
/// let mut tiles = Contraction::new(a, b, d).with_beta(2).tiles(&mut words, sizes, &mut work)?;
///
/// tiles.step(3)?;
/// assert_eq!((tiles.done(), tiles.total()), (3, 8));
/// assert_eq!(tiles.state(OutputIndex::new(0, 0, 0))?, State::Final);
/// assert_eq!(tiles.state(OutputIndex::new(0, 1, 0))?, State::Part);
/// assert_eq!(tiles.words(), [211, 402, 300, 400]);
///
/// // The rest, two tiles at a time.
/// let mut tiles = tiles.with_budget(2);
/// while let Some(progress) = tiles.next() {
///     println!("{} of {} tiles", progress?.done, tiles.total());
/// }
/// assert_eq!(words, [211, 414, 608, 810]);
/// # Ok::<(), nezgrak::Refusal>(())
/// ```
#[derive(Debug)]
pub struct Tiles<'a> {
    contraction: Contraction<'a>,
    d: &'a mut [u32],
    sizes: TileSizes,
    work: &'a mut [u32],
    done: u64,
    total: u64,
    budget: u64,
}

impl<'a> Contraction<'a> {
    /// The contraction tile by tile, into these words of D, with no tile done yet. [`run_tiles()`](Contraction::run_tiles)
    /// says what is left in `work`; [`TileSizes::work_words`] says how long it has to be.
    ///
    /// # Errors
    ///
    /// The number of the first question that fails, 1 to 11 or 30. They are asked here, so that no step is refused later.
    pub fn tiles(self, d: &'a mut [u32], sizes: TileSizes, work: &'a mut [u32]) -> Result<Tiles<'a>, Refusal> {
        let mut tiles = Tiles { contraction: self, d, sizes, work, done: 0, total: 0, budget: 1 };
        tiles.total = tiles.largest_count()?;
        Ok(tiles)
    }
}

impl Tiles<'_> {
    /// No total is larger: there are no more tiles than the product that question 7 limits, in which an extent 0 counts as
    /// 1, as a depth of size 0 counts as one panel.
    const MOST: u64 = 1_073_741_824;

    /// The same, with this many tiles for each [`next`](Iterator::next). With a budget of 0 no tile would ever run, so
    /// the iterator then ends at once.
    #[must_use]
    pub fn with_budget(self, budget: u64) -> Self {
        Self { budget, ..self }
    }

    /// Runs the smaller of the budget and what is left.
    ///
    /// # Errors
    ///
    /// None: the questions are asked again, of what [`Contraction::tiles`] asked them of.
    pub fn step(&mut self, budget: u64) -> Result<Progress, Refusal> {
        let progress = self.run(self.done, budget)?;
        self.done = progress.done;
        Ok(progress)
    }

    /// The state of an output index now.
    ///
    /// # Errors
    ///
    /// 13 where a count is not below the size of its group.
    pub fn state(&self, index: OutputIndex) -> Result<State, Refusal> {
        self.contraction.state(self.d, self.sizes, self.done, index)
    }

    /// How many tiles are done.
    #[must_use]
    pub fn done(&self) -> u64 {
        self.done
    }

    /// How many tiles there are.
    #[must_use]
    pub fn total(&self) -> u64 {
        self.total
    }

    /// Whether all tiles are done, so that every output word is final.
    #[must_use]
    pub fn is_complete(&self) -> bool {
        self.done == self.total
    }

    /// D's slice as it is now.
    #[must_use]
    pub fn words(&self) -> &[u32] {
        self.d
    }

    fn run(&mut self, done: u64, budget: u64) -> Result<Progress, Refusal> {
        self.contraction.run_tiles(self.d, self.sizes, self.work, done, budget)
    }

    /// The total is the largest count of tiles done that question 12 accepts. The engine is asked, with a budget of 0
    /// that runs nothing, in 30 halvings: its answers are proved, and a formula here would not be.
    fn largest_count(&mut self) -> Result<u64, Refusal> {
        let (mut accepted, mut most) = (0, Self::MOST);
        self.run(accepted, 0)?;
        while accepted < most {
            let middle = most - (most - accepted) / 2;
            match self.run(middle, 0) {
                Ok(_) => accepted = middle,
                Err(_) => most = middle - 1,
            }
        }
        Ok(accepted)
    }
}

/// Runs a budget of tiles for each item, until all are done.
impl Iterator for Tiles<'_> {
    type Item = Result<Progress, Refusal>;

    fn next(&mut self) -> Option<Self::Item> {
        if self.is_complete() || self.budget == 0 {
            return None;
        }
        Some(self.step(self.budget))
    }
}
