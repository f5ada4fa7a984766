//! What the archive exports. A layout is a pointer to its 28 words; a slice is a pointer and then a length. No pointer is
//! null.

/// A layout: 0 to 7 its letters, 8 to 15 its extents, 16 to 23 its strides in two's complement, 24 to 26 how many letters,
/// extents and strides there are, and 27 its base.
pub(crate) type LayoutWords = [u32; 28];

/// A tensor that a call only reads.
#[derive(Clone, Copy)]
pub(crate) struct Operand<'a> {
    pub(crate) layout: &'a LayoutWords,
    pub(crate) words: &'a [u32],
}

impl Operand<'_> {
    /// What the archive takes for it: layout, words, and how many these are.
    fn passed(self) -> (*const LayoutWords, *const u32, usize) {
        (self.layout, self.words.as_ptr(), self.words.len())
    }
}

/// Declares a call in its two forms, without C and with it, and the function that takes the one or the other. C stands
/// between B and D; what follows in both forms is written once.
macro_rules! call {
    ($(#[$about:meta])* $name:ident is $without_c:ident or $with_c:ident, with ($($other:ident: $type:ty),* $(,)?)) => {
        extern "C" {
            fn $without_c(
                a_layout: *const LayoutWords, a: *const u32, a_count: usize,
                b_layout: *const LayoutWords, b: *const u32, b_count: usize,
                $($other: $type),*
            ) -> u32;

            fn $with_c(
                a_layout: *const LayoutWords, a: *const u32, a_count: usize,
                b_layout: *const LayoutWords, b: *const u32, b_count: usize,
                c_layout: *const LayoutWords, c: *const u32, c_count: usize,
                $($other: $type),*
            ) -> u32;
        }

        $(#[$about])*
        ///
        /// # Safety
        ///
        /// Each pointer is aligned and not null, and what it points to is there: a layout, one value, or as many words as
        /// the count after it says. Nothing that is written shares a word with anything else that is passed.
        pub(crate) unsafe fn $name(a: Operand<'_>, b: Operand<'_>, c: Option<Operand<'_>>, $($other: $type),*) -> u32 {
            let ((a_layout, a, a_count), (b_layout, b, b_count)) = (a.passed(), b.passed());
            match c.map(Operand::passed) {
                None => $without_c(a_layout, a, a_count, b_layout, b, b_count, $($other),*),
                Some((c_layout, c, c_count)) => {
                    $with_c(a_layout, a, a_count, b_layout, b, b_count, c_layout, c, c_count, $($other),*)
                }
            }
        }
    };
}

call! {
    /// Questions 1 to 9, with C 30 after 6, then the plain engine. Answers 0, or the number of the question that refused.
    contract is nezgrak_contract or nezgrak_contract_with_c, with (
        d_layout: *const LayoutWords,
        d: *mut u32,
        d_count: usize,
        alpha: u32,
        beta: u32,
    )
}

call! {
    /// Questions 1 to 12, with C 30 after 6, then as many tiles as the budget allows and are left. Answers 0, with the new
    /// count of tiles done and 1 where that is the total; or the number of the question that refused, with the count as
    /// given and 0.
    run_tiles is nezgrak_run_tiles or nezgrak_run_tiles_with_c, with (
        d_layout: *const LayoutWords,
        d: *mut u32,
        d_count: usize,
        alpha: u32,
        beta: u32,
        rows: u32,
        cols: u32,
        depth: u32,
        work: *mut u32,
        work_count: usize,
        done: u64,
        budget: u64,
        done_after: *mut u64,
        complete: *mut u32,
    )
}

call! {
    /// Questions 1 to 10, with C 30 after 6, 12 and 13, then the state of an output index: 0 old, 1 part, 2 final. Answers
    /// 0; or the number of the question that refused, and leaves the state as it was.
    state is nezgrak_state or nezgrak_state_with_c, with (
        d_layout: *const LayoutWords,
        d: *const u32,
        d_count: usize,
        alpha: u32,
        beta: u32,
        rows: u32,
        cols: u32,
        depth: u32,
        done: u64,
        batch: u64,
        row: u64,
        column: u64,
        state: *mut u32,
    )
}

extern "C" {
    /// Questions 31 and 32, then the lag with the greatest score, and that score. Answers 0; or the number of the question
    /// that refused, and leaves both as they were. Samples are words read as signed.
    ///
    /// # Safety
    ///
    /// Each pointer is aligned and not null, and what it points to is there: one value, or as many words as the count after
    /// it says. Nothing that is written shares a word with anything else that is passed.
    pub(crate) fn nezgrak_delay(
        x: *const u32,
        x_count: usize,
        y: *const u32,
        y_count: usize,
        greatest_lag: u64,
        lag: *mut u64,
        score: *mut i64,
    ) -> u32;
}
