//! One contraction by both engines: the plain call and tile calls.

use super::case::Case;
use super::{call, cutting};

/// Both have to leave exactly these words.
pub fn gives(case: &Case, words: &[u32]) {
    call::gives(case, words);
    cutting::gives(case, words);
}

/// Both have to refuse by this number.
pub fn refuses(case: &Case, number: u32) {
    call::refuses(case, number);
    cutting::refuses(case, number);
}
