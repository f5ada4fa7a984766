//! Contractions of which one block has a large part of a tile's time: A's rows or B's columns, which are packed, or D's
//! rows, to which the sums go. The block's offsets fall into stretches of the sort that is asked for.

use crate::contraction::{Axes, Contraction, Tensor};
use nezgrak::TileSizes;
use std::fmt;

/// The depth of a tile that is there for its packing.
const DEPTH: u32 = 128;
/// The columns of a tile that is there for its stores.
const COLUMNS: u32 = 64;
/// How many words lie between two stretches of step 1.
const GAP: u32 = 3;

/// How a block's offsets follow one another.
#[derive(Clone, Copy)]
pub enum Sort {
    /// One stretch of this step.
    Step(u32),
    /// So many stretches of step 1.
    Stretches(u32),
    /// Stretches of four offsets, of step 1.
    Fours,
    /// Stretches of two offsets, which lie half of the block's words apart.
    Scattered,
}

impl Sort {
    /// How many offsets a stretch has in a block of so many. The last one has the rest.
    fn length(self, count: u32) -> u32 {
        match self {
            Self::Step(_) => count,
            Self::Stretches(stretches) => count.div_ceil(stretches),
            Self::Fours => 4,
            Self::Scattered => 2,
        }
    }

    pub fn stretches(self, count: u32) -> u32 {
        count.div_ceil(self.length(count))
    }

    /// Extent and stride of the group's two labels, the first one faster. The block has the first counts of the group.
    fn labels(self, count: u32) -> [(u32, u32); 2] {
        let (length, stretches) = (self.length(count), self.stretches(count));
        match self {
            Self::Step(step) => [(count, step), (1, 1)],
            Self::Stretches(_) | Self::Fours => [(length, 1), (stretches, length + GAP)],
            Self::Scattered => [(length, stretches), (stretches, 1)],
        }
    }
}

impl fmt::Display for Sort {
    fn fmt(&self, f: &mut fmt::Formatter<'_>) -> fmt::Result {
        match self {
            Self::Step(step) => write!(f, "step {step}"),
            Self::Stretches(stretches) => write!(f, "{stretches} stretches of step 1"),
            Self::Fours => write!(f, "four offsets a stretch, step 1"),
            Self::Scattered => write!(f, "scattered, two offsets a stretch"),
        }
    }
}

/// Which block it is.
#[derive(Clone, Copy, PartialEq)]
pub enum Place {
    RowsOfA,
    ColumnsOfB,
    RowsOfD,
    /// Alpha and beta are 1.
    RowsOfDByOnes,
}

impl Place {
    pub fn sizes(self, count: u32) -> TileSizes {
        match self {
            Self::RowsOfA => TileSizes { rows: count, cols: 1, depth: DEPTH },
            Self::ColumnsOfB => TileSizes { rows: 1, cols: count, depth: DEPTH },
            Self::RowsOfD | Self::RowsOfDByOnes => TileSizes { rows: count, cols: COLUMNS, depth: 1 },
        }
    }

    /// A contraction whose first tile has such a block in this place. In the other tensor with these labels, a and b, all
    /// offsets have step 1. What is packed has stride 1 along the depth, so that its entries share words: as few words
    /// are read as can be, and the walk along the block is what takes the time.
    pub fn contraction(self, sort: Sort, count: u32) -> Contraction {
        let [(m, s), (n, t)] = sort.labels(count);
        let [s, t, next, column] = [s, t, m, (m - 1) * s + (n - 1) * t + 1].map(|stride| stride as i32);
        let even: Axes<'_> = ("ab", &[m, n], &[1, next], 0);
        let packed: Axes<'_> = ("abk", &[m, n, DEPTH], &[s, t, 1], 0);
        let depth: Axes<'_> = ("k", &[DEPTH], &[1], 0);
        let columns: Axes<'_> = ("j", &[COLUMNS], &[1], 0);
        let stored: Axes<'_> = ("abj", &[m, n, COLUMNS], &[s, t, column], 0);
        let contraction = match self {
            Self::RowsOfA => Contraction::random(packed, depth, even),
            Self::ColumnsOfB => Contraction::random(depth, packed, even),
            Self::RowsOfD => Contraction::random(even, columns, stored),
            Self::RowsOfDByOnes => Contraction { alpha: 1, beta: 1, ..Contraction::random(even, columns, stored) },
        };
        self.check(sort, count, &contraction);
        contraction
    }

    /// Ends the run where the block has other stretches than it is said to have.
    fn check(self, sort: Sort, count: u32, c: &Contraction) {
        let tensor = match self {
            Self::RowsOfA => &c.a,
            Self::ColumnsOfB => &c.b,
            Self::RowsOfD | Self::RowsOfDByOnes => &c.d,
        };
        let of_length = vec![sort.length(count) as usize; (count / sort.length(count)) as usize];
        let rest = (count % sort.length(count)) as usize;
        let said: Vec<usize> = of_length.into_iter().chain((rest > 0).then_some(rest)).collect();
        assert_eq!(stretches(&offsets(tensor, count)), said, "the stretches of {count} offsets, {sort}");
    }
}

impl fmt::Display for Place {
    fn fmt(&self, f: &mut fmt::Formatter<'_>) -> fmt::Result {
        f.write_str(match self {
            Self::RowsOfA => "packing A's rows",
            Self::ColumnsOfB => "packing B's columns",
            Self::RowsOfD => "storing to D's rows",
            Self::RowsOfDByOnes => "the same, both factors 1",
        })
    }
}

/// The offsets in a tensor of the first counts of the labels a and b, by the digits of each count.
fn offsets(tensor: &Tensor, count: u32) -> Vec<i64> {
    let axis = |letter| tensor.letters.find(letter).expect("a label of the tensor");
    let place = |count: u32| {
        let [a, b] = ['a', 'b'].map(axis);
        let (first, second) = (count % tensor.extents[a], count / tensor.extents[a]);
        assert!(second < tensor.extents[b], "no count {count} of a group");
        i64::from(first) * i64::from(tensor.strides[a]) + i64::from(second) * i64::from(tensor.strides[b])
    };
    (0..count).map(place).collect()
}

/// How long each stretch is: the first one is the longest even beginning, and so on with what is left.
fn stretches(offsets: &[i64]) -> Vec<usize> {
    let (mut lengths, mut from) = (Vec::new(), 0);
    while from < offsets.len() {
        let steps: Vec<i64> = offsets[from..].windows(2).map(|two| two[1] - two[0]).collect();
        let even = steps.iter().take_while(|step| **step == steps[0]).count();
        lengths.push(even + 1);
        from += even + 1;
    }
    lengths
}
