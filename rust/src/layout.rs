use crate::ffi::LayoutWords;
use core::{array, fmt};

/// Where what stands in a layout's words.
const LETTERS: usize = 0;
const EXTENTS: usize = 8;
const STRIDES: usize = 16;
const LETTER_COUNT: usize = 24;
const EXTENT_COUNT: usize = 25;
const STRIDE_COUNT: usize = 26;
const BASE: usize = 27;

/// How many letters, extents or strides a layout holds.
const AXES: usize = 8;

/// Which word of a tensor's slice is which entry.
///
/// A tensor has a letter, an extent and a signed stride for each of its axes, and a base. The entry at index (i, j, ..)
/// is the word at base + i × stride + j × stride' + .. of the slice. A letter that a tensor repeats is one label, whose
/// stride is the sum of its strides, so `ii` is a diagonal. With no letters there is one entry, at the base.
///
/// A layout is not checked when it is made: the engine asks its questions at each call and refuses what fails one
/// ([`Refusal`](crate::Refusal)).
///
/// ```
/// use nezgrak::Layout;
///
/// // A matrix of 2 rows and 3 columns whose columns lie one after the other.
/// let matrix = Layout::new(b"ij", &[2, 3], &[1, 2], 0);
/// // The same matrix with its rows upside down.
/// let turned = Layout::new(b"ij", &[2, 3], &[-1, 2], 1);
/// # assert_ne!(matrix, turned);
/// ```
#[derive(Clone, Copy, PartialEq, Eq, Hash)]
pub struct Layout {
    words: LayoutWords,
}

impl Layout {
    /// The layout with these axes and this base: letters `A` to `Z` and `a` to `z`, extents 0 to 65,536, strides
    /// -16,777,216 to 16,777,216, as many of each, and a base up to 16,777,216.
    ///
    /// A tensor has at most 8 letters. Of more of a kind their count is kept, so that a call refuses the layout.
    #[must_use]
    pub const fn new(letters: &[u8], extents: &[u32], strides: &[i32], base: u32) -> Self {
        let mut words = [0; 28];
        let mut axis = 0;
        while axis < AXES {
            if axis < letters.len() {
                words[LETTERS + axis] = letters[axis] as u32;
            }
            if axis < extents.len() {
                words[EXTENTS + axis] = extents[axis];
            }
            if axis < strides.len() {
                words[STRIDES + axis] = strides[axis] as u32;
            }
            axis += 1;
        }
        words[LETTER_COUNT] = word_of(letters.len());
        words[EXTENT_COUNT] = word_of(extents.len());
        words[STRIDE_COUNT] = word_of(strides.len());
        words[BASE] = base;
        Self { words }
    }

    /// The layout without letters: one entry, at the base.
    #[must_use]
    pub const fn scalar(base: u32) -> Self {
        Self::new(&[], &[], &[], base)
    }

    /// The layout that these words say, which are those of a `nezgrak_layout` in C: eight letters, eight extents, eight
    /// strides in two's complement, how many there are of each, and the base.
    ///
    /// Words past a count mean nothing. A letter above 255 is read as letter 0, which a call refuses.
    #[must_use]
    pub const fn from_words(words: [u32; 28]) -> Self {
        Self { words }
    }

    /// The words that the engine reads.
    #[must_use]
    pub const fn as_words(&self) -> &[u32; 28] {
        &self.words
    }
}

/// A count as a word. One that no word holds is refused as any above 8 is.
const fn word_of(count: usize) -> u32 {
    if count < u32::MAX as usize {
        count as u32
    } else {
        u32::MAX
    }
}

/// The axes as far as they are there, at most 8.
impl fmt::Debug for Layout {
    fn fmt(&self, f: &mut fmt::Formatter<'_>) -> fmt::Result {
        let eight = |from: usize| -> [u32; AXES] { array::from_fn(|axis| self.words[from + axis]) };
        let there = |count: usize| AXES.min(self.words[count] as usize);
        let letters = eight(LETTERS).map(|word| char::from_u32(word).unwrap_or(char::REPLACEMENT_CHARACTER));
        let strides = eight(STRIDES).map(|word| word as i32);
        f.debug_struct("Layout")
            .field("letters", &&letters[..there(LETTER_COUNT)])
            .field("extents", &&eight(EXTENTS)[..there(EXTENT_COUNT)])
            .field("strides", &&strides[..there(STRIDE_COUNT)])
            .field("counts", &&self.words[LETTER_COUNT..BASE])
            .field("base", &self.words[BASE])
            .finish()
    }
}

#[cfg(test)]
mod tests {
    extern crate std;
    use super::Layout;
    use std::format;

    #[test]
    fn the_words_of_two_axes() {
        let mut words = [0; 28];
        words[..2].copy_from_slice(&[105, 107]);
        words[8..10].copy_from_slice(&[2, 3]);
        words[16..18].copy_from_slice(&[u32::MAX, 2]);
        words[24..].copy_from_slice(&[2, 2, 2, 1]);
        let layout = Layout::new(b"ik", &[2, 3], &[-1, 2], 1);
        assert_eq!(layout.as_words(), &words);
        assert_eq!(layout, Layout::from_words(words));
    }

    #[test]
    fn of_more_than_eight_axes_the_count() {
        let layout = Layout::new(&[b'z'; 300], &[7; 9], &[-2; 10], 0);
        assert_eq!(layout.as_words()[..8], [122; 8]);
        assert_eq!(layout.as_words()[8..16], [7; 8]);
        assert_eq!(layout.as_words()[16..24], [u32::MAX - 1; 8]);
        assert_eq!(layout.as_words()[24..], [300, 9, 10, 0]);
    }

    #[test]
    fn shown() {
        let layout = Layout::new(b"ik", &[2, 3], &[-1, 2], 1);
        let text = "Layout { letters: ['i', 'k'], extents: [2, 3], strides: [-1, 2], counts: [2, 2, 2], base: 1 }";
        assert_eq!(format!("{layout:?}"), text);
        assert_eq!(format!("{:?}", Layout::from_words([u32::MAX; 28])).matches("-1").count(), 8);
    }
}
