//! The model's stretches of a block's offsets, by the rule's words: a stretch is the longest even beginning of what is
//! left.

use super::case::Tensor;
use super::groups::Group;

/// How long each stretch is.
pub fn stretches(offsets: &[i64]) -> Vec<usize> {
    let (mut lengths, mut left) = (Vec::new(), offsets);
    while !left.is_empty() {
        let length = longest_even_beginning(left);
        lengths.push(length);
        left = &left[length..];
    }
    lengths
}

/// One or two offsets are even, all of them; of more as many as follow by the first step.
fn longest_even_beginning(offsets: &[i64]) -> usize {
    if offsets.len() <= 2 {
        return offsets.len();
    }
    let (first, step) = (offsets[0], offsets[1] - offsets[0]);
    let follows = |count: &usize| offsets[*count] == first + step * *count as i64;
    (0..offsets.len()).take_while(follows).count()
}

/// The classes of blocks: by how many stretches they have.
pub const CLASSES: [&str; 4] = ["1 stretch", "2 stretches", "3 stretches", "4 stretches or more"];

/// The class of each block that a group has in a tensor, cut to this width.
pub fn classes(t: &Tensor, group: &Group, width: u64) -> Vec<&'static str> {
    let class = |counts| CLASSES[stretches(&group.places(t, counts)).len().min(CLASSES.len()) - 1];
    group.blocks(width).map(class).collect()
}
