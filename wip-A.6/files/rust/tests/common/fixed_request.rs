//! A tile call in fixed point as it is handed in, and what it answers and leaves. What it shares with other tile calls is
//! theirs; alpha, beta and C, where it is named, mean nothing here.

use super::request::{Ran, Request};
use std::fmt;

#[derive(Clone)]
pub struct FixedRequest {
    pub request: Request,
    pub shift: u32,
    pub sums: Vec<i64>,
}

impl fmt::Debug for FixedRequest {
    fn fmt(&self, f: &mut fmt::Formatter<'_>) -> fmt::Result {
        let shown = &self.sums[..self.sums.len().min(64)];
        write!(f, "{:?}, shift {}, {} sums {shown:?}", self.request, self.shift, self.sums.len())
    }
}

#[derive(Clone, PartialEq)]
pub struct FixedRan {
    pub ran: Ran,
    pub sums: Vec<i64>,
}

impl FixedRan {
    /// The count as given, and no word and no sum changed.
    pub fn refused(r: &FixedRequest, answer: u32) -> Self {
        Self { ran: Ran::refused(&r.request, answer), sums: r.sums.clone() }
    }
}
