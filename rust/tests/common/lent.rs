//! A contraction as it is lent to a call: each layout and each slice between guard words.

use super::case::{Case, Tensor};
use super::ffi::{LayoutWords, Operand};
use super::guard::Guarded;
use nezgrak::{Contraction, Layout};

/// What stands in a layout's words past a count.
const REST: u32 = 0xdead_01e5;

/// The words of a layout, with others than 0 past each count. Of more than eight axes the first eight are there.
pub fn words_of(t: &Tensor) -> LayoutWords {
    let mut words = [REST; 28];
    words.iter_mut().zip(&t.letters).take(8).for_each(|(word, letter)| *word = u32::from(*letter));
    words[8..].iter_mut().zip(&t.extents).take(8).for_each(|(word, extent)| *word = *extent);
    words[16..].iter_mut().zip(&t.strides).take(8).for_each(|(word, stride)| *word = *stride as u32);
    let counts = [t.letters.len(), t.extents.len(), t.strides.len()];
    words[24..27].copy_from_slice(&counts.map(|count| count as u32));
    words[27] = t.base;
    words
}

/// The layout as the safe calls take it.
pub fn layout_of(t: &Tensor) -> Layout {
    Layout::new(&t.letters, &t.extents, &t.strides, t.base)
}

/// The contraction as the safe calls take it, of its own words.
pub fn contraction_of(case: &Case) -> Contraction<'_> {
    contraction_over(case, &case.a.words, &case.b.words, case.c.as_ref().map(|c| c.words.as_slice()))
}

/// The same with these words for A's, B's and C's.
fn contraction_over<'a>(case: &Case, a: &'a [u32], b: &'a [u32], c: Option<&'a [u32]>) -> Contraction<'a> {
    let tensor = |t: &Tensor, words: &'a [u32]| nezgrak::Tensor::new(layout_of(t), words);
    let (a, b, d) = (tensor(&case.a, a), tensor(&case.b, b), layout_of(&case.d));
    let without_c = Contraction::new(a, b, d).with_alpha(case.alpha).with_beta(case.beta);
    case.c.as_ref().zip(c).map_or(without_c, |(t, words)| without_c.with_c(tensor(t, words)))
}

pub struct LentTensor {
    layout: Guarded<u32>,
    words: Guarded<u32>,
}

impl LentTensor {
    /// The words start so many words later.
    fn shifted(t: &Tensor, shift: usize) -> Self {
        Self { layout: Guarded::around(&words_of(t)), words: Guarded::shifted(&t.words, shift) }
    }

    pub fn layout(&self) -> &LayoutWords {
        self.layout.part().try_into().expect("28 words")
    }

    pub fn words(&self) -> &[u32] {
        self.words.part()
    }

    pub fn words_mut(&mut self) -> &mut [u32] {
        self.words.part_mut()
    }

    /// As the calls take a tensor that they only read.
    pub fn operand(&self) -> Operand<'_> {
        Operand { layout: self.layout(), words: self.words() }
    }

    fn kept(&self, t: &Tensor) -> bool {
        self.layout.intact() && self.words.intact() && *self.layout() == words_of(t)
    }
}

pub struct Lent {
    pub a: LentTensor,
    pub b: LentTensor,
    pub c: Option<LentTensor>,
    pub d: LentTensor,
}

impl Lent {
    pub fn of(case: &Case) -> Self {
        Self::shifted(case, [0; 4])
    }

    /// The words of A, B, C and D start so many words later.
    pub fn shifted(case: &Case, [of_a, of_b, of_c, of_d]: [usize; 4]) -> Self {
        let [a, b, d] =
            [(&case.a, of_a), (&case.b, of_b), (&case.d, of_d)].map(|(t, shift)| LentTensor::shifted(t, shift));
        Self { a, b, c: case.c.as_ref().map(|c| LentTensor::shifted(c, of_c)), d }
    }

    /// The contraction as the safe calls take it, of the lent words, and D's words beside it.
    pub fn contraction(&mut self, case: &Case) -> (Contraction<'_>, &mut [u32]) {
        let words_of_c = self.c.as_ref().map(LentTensor::words);
        (contraction_over(case, self.a.words(), self.b.words(), words_of_c), self.d.words_mut())
    }

    /// Fails where a layout, a word of A, B or C, or a guard word was changed.
    pub fn check(&self, case: &Case) {
        let read = [&self.a, &self.b].into_iter().chain(&self.c);
        for ((name, t), lent) in case.named().into_iter().zip(read.chain([&self.d])) {
            assert!(lent.kept(t), "a layout, or a word outside a slice, was changed: {case:?}");
            assert!(name == "D" || lent.words() == t.words, "{name} was changed: {case:?}");
        }
    }
}
