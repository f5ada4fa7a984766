use crate::{ffi, Refusal};

/// By how much one recording is later than another one.
#[derive(Clone, Copy, Debug, PartialEq, Eq, Hash)]
pub struct Delay {
    /// In samples: the lag with the greatest score, the smallest such lag on a tie.
    pub lag: u64,
    /// The score of that lag.
    pub score: i64,
}

/// Finds by how many samples X is later than Y, up to a greatest lag.
///
/// Both recordings have the same length n. With L the greatest lag, the score of a lag l is the sum of x\[t + l\] × y\[t\]
/// for t from 0 to n - L - 1, so that each lag from 0 to L has the same n - L terms. Scores are exact sums of whole
/// numbers. Where Y can be the later one, ask again with the recordings exchanged.
///
/// # Errors
///
/// 31 where the lengths differ, the greatest lag is above 64, or n - L is not 1 to 256. 32, asked next, where a sample of
/// either recording is not from -2,048 to 2,047, also one of the last L of Y, which no score uses.
///
/// ```
/// use nezgrak::{delay, Delay};
///
/// // Y hears the call one sample after it began to record, X three samples after.
/// let x = [0, 1, 0, 5, -7, 3, 0, 1];
/// let y = [0, 5, -7, 3, 0, 0, 1, 0];
/// assert_eq!(delay(&x, &y, 4)?, Delay { lag: 2, score: 5 * 5 + 7 * 7 + 3 * 3 });
/// assert_eq!(delay(&x, &y, 8).unwrap_err().number(), 31);
/// assert_eq!(delay(&x, &[2_048; 8], 4).unwrap_err().number(), 32);
/// # Ok::<(), nezgrak::Refusal>(())
/// ```
pub fn delay(x: &[i32], y: &[i32], greatest_lag: u64) -> Result<Delay, Refusal> {
    let (mut lag, mut score) = (0, 0);
    // SAFETY: each pointer and length are those of one slice, so the pointer is aligned and not null, also where the length
    // is 0, and the samples are there. A `u32` has the size and the alignment of an `i32`, and every value of its bits is
    // one of both. The samples are only read, and the two answers are variables of this function, so that nothing that is
    // written shares a word with anything else that is passed. The archive keeps no pointer.
    let number = unsafe {
        ffi::nezgrak_delay(x.as_ptr().cast(), x.len(), y.as_ptr().cast(), y.len(), greatest_lag, &mut lag, &mut score)
    };
    Refusal::done_or(number)?;
    Ok(Delay { lag, score })
}
