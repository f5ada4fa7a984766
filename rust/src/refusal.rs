use core::error::Error;
use core::fmt;

/// The question that a call failed. Questions are asked in the order of their numbers, but 30 right after 6, each of A, B,
/// C where it is named and D before the next, so the number is that of the first *no*. A refused call changes no word.
///
/// 9 is asked of D alone, and 30 only where C is named.
///
/// [`contract()`](crate::Contraction::contract) asks 1 to 6, 30 and 7 to 9,
/// [`run_tiles()`](crate::Contraction::run_tiles) 1 to 6, 30 and 7 to 12, and
/// [`state()`](crate::Contraction::state) 1 to 6, 30, 7 to 10, 12 and 13.
/// [`delay()`](crate::delay()) asks 31 and 32 of its recordings, and nothing else.
///
/// ```
/// use nezgrak::{Contraction, Layout, Tensor};
///
/// let two = Tensor::new(Layout::scalar(0), &[2]);
/// let refused = Contraction::new(two, two, Layout::scalar(1)).contract(&mut [0]).unwrap_err();
/// assert_eq!(refused.number(), 8);
/// assert_eq!(refused.to_string(), "refused 8: an entry of a tensor falls outside its slice");
/// ```
#[derive(Clone, Copy, PartialEq, Eq, Hash)]
pub struct Refusal {
    number: u32,
}

impl Refusal {
    /// The question's number, 1 to 13 or 30 to 32.
    #[must_use]
    pub const fn number(self) -> u32 {
        self.number
    }

    /// Reads the number that a call answered: 0 is done.
    pub(crate) const fn done_or(number: u32) -> Result<(), Self> {
        match number {
            0 => Ok(()),
            _ => Err(Self { number }),
        }
    }

    /// What was found.
    const fn finding(self) -> &'static str {
        match self.number {
            1 => "a tensor has more than 8 letters",
            2 => "there are not as many extents and as many strides as letters",
            3 => "a letter is not A to Z or a to z",
            4 => "an extent is not 0 to 65,536",
            5 => {
                "a stride is not from -16,777,216 to 16,777,216, a base is above 16,777,216, \
                 or a tensor's slice has more than 16,777,216 words"
            }
            6 => "a letter has two extents",
            30 => "C's different letters are not exactly D's",
            7 => "the product of the extents of all different labels is above 1,073,741,824",
            8 => "an entry of a tensor falls outside its slice",
            9 => {
                "D's strides may let two indices meet in one word: for a D label of extent above 1, its stride's size \
                 does not exceed the sum of (extent - 1) * stride size over the other D labels whose stride size is \
                 no greater (strides summed per letter)"
            }
            10 => "rows or cols are not 1 to 64, or depth is not 1 to 128",
            11 => "the work slice has fewer than rows * depth + depth * cols words",
            12 => "the count of tiles done is above the total",
            13 => "a count of the output index is not below its group's size",
            31 => {
                "the lengths of the recordings differ, the greatest lag is above 64, \
                 or the length less the greatest lag is not 1 to 256"
            }
            32 => "a sample of a recording is not from -2,048 to 2,047",
            _ => "a question of another number",
        }
    }
}

impl fmt::Display for Refusal {
    fn fmt(&self, f: &mut fmt::Formatter<'_>) -> fmt::Result {
        write!(f, "refused {}: {}", self.number, self.finding())
    }
}

/// As it is displayed: `main` and `unwrap` show an error so.
impl fmt::Debug for Refusal {
    fn fmt(&self, f: &mut fmt::Formatter<'_>) -> fmt::Result {
        fmt::Display::fmt(self, f)
    }
}

impl Error for Refusal {}

#[cfg(test)]
mod tests {
    extern crate std;
    use super::Refusal;
    use std::collections::HashSet;
    use std::format;
    use std::string::ToString;

    #[test]
    fn nothing_is_refused_by_0() {
        assert_eq!(Refusal::done_or(0), Ok(()));
    }

    #[test]
    fn each_number_has_a_text_of_its_own() {
        let texts: HashSet<_> = (1..=14).chain(30..=32).map(|n| Refusal::done_or(n).unwrap_err().finding()).collect();
        assert_eq!(texts.len(), 17);
        let refused = Refusal::done_or(6).unwrap_err();
        assert_eq!(refused.to_string(), "refused 6: a letter has two extents");
        assert_eq!(format!("{refused:?}"), "refused 6: a letter has two extents");
    }
}
