//! A contraction as a reference for any number of labels writes it: an index vector steps through all labels but one,
//! which is a loop of its own. Addresses are carried along: a label's stride is added where it steps, and taken back where
//! it starts anew. Each term is added to its word of D.

use crate::contraction::{Contraction, Tensor};

/// The place in A, in B and in D, as words in two's complement.
pub type Places = [usize; 3];

/// A label's extent, and its stride in A, B and D.
#[derive(Clone, Copy)]
pub struct Label {
    pub extent: usize,
    pub strides: Places,
}

/// The labels of a contraction. The first is the one with the smallest stride in D, so that the loop over it finds words
/// close together; then come those that D lacks, then the rest of D's by rising stride.
pub struct Odometer {
    pub labels: Vec<Label>,
    pub base: Places,
}

impl Odometer {
    pub fn of(c: &Contraction) -> Self {
        let tensors = [&c.a, &c.b, &c.d];
        let mut labels: Vec<Label> = letters(tensors).iter().map(|letter| label(tensors, *letter)).collect();
        labels.sort_by_key(Label::size_in_d);
        if let Some(first_of_d) = labels.iter().position(Label::is_in_d) {
            labels[..=first_of_d].rotate_right(1);
        }
        Self { labels, base: tensors.map(|tensor| tensor.base as usize) }
    }

    pub fn run(&self, c: &Contraction, d: &mut [u32]) {
        scale(self, c, d);
        let alone = Label { extent: 1, strides: [0; 3] };
        let (line, labels) = self.labels.split_first().unwrap_or((&alone, &[]));
        let (mut index, mut at) = (vec![0; labels.len()], self.base);
        loop {
            add_line(c, d, line, at);
            if step(labels, &mut index, &mut at) == labels.len() {
                return;
            }
        }
    }
}

impl Label {
    /// The size of the stride in D.
    pub fn size_in_d(&self) -> usize {
        (self.strides[2] as isize).unsigned_abs()
    }

    pub fn is_in_d(&self) -> bool {
        self.strides[2] != 0
    }
}

fn add_line(c: &Contraction, d: &mut [u32], line: &Label, mut at: Places) {
    for _ in 0..line.extent {
        add_term(c, d, at);
        at = moved(at, line.strides, 1);
    }
}

#[inline(always)]
pub fn add_term(c: &Contraction, d: &mut [u32], at: Places) {
    let term = c.a.words[at[0]].wrapping_mul(c.b.words[at[1]]);
    d[at[2]] = d[at[2]].wrapping_add(c.alpha.wrapping_mul(term));
}

/// Beta × each word that D's layout addresses.
pub fn scale(odometer: &Odometer, c: &Contraction, d: &mut [u32]) {
    let labels: Vec<Label> = odometer.labels.iter().copied().filter(Label::is_in_d).collect();
    let (mut index, mut at) = (vec![0; labels.len()], odometer.base);
    loop {
        d[at[2]] = c.beta.wrapping_mul(d[at[2]]);
        if step(&labels, &mut index, &mut at) == labels.len() {
            return;
        }
    }
}

/// The next index, the first label fastest, and its places. Answers which label stepped; after the last index none has,
/// and the answer is the number of labels.
#[inline(always)]
pub fn step(labels: &[Label], index: &mut [usize], at: &mut Places) -> usize {
    for (n, (label, value)) in labels.iter().zip(index).enumerate() {
        *value += 1;
        *at = moved(*at, label.strides, 1);
        if *value < label.extent {
            return n;
        }
        *at = moved(*at, label.strides, label.extent.wrapping_neg());
        *value = 0;
    }
    labels.len()
}

#[inline(always)]
pub fn moved(at: Places, strides: Places, by: usize) -> Places {
    [0, 1, 2].map(|tensor| at[tensor].wrapping_add(strides[tensor].wrapping_mul(by)))
}

/// The letters of all three, each once, in order of first appearance.
fn letters(tensors: [&Tensor; 3]) -> Vec<char> {
    let mut letters = Vec::new();
    for letter in tensors.iter().flat_map(|tensor| tensor.letters.chars()) {
        if !letters.contains(&letter) {
            letters.push(letter);
        }
    }
    letters
}

fn label(tensors: [&Tensor; 3], letter: char) -> Label {
    let extent = tensors.iter().find_map(|tensor| extent(tensor, letter)).expect("a letter of a tensor");
    Label { extent, strides: tensors.map(|tensor| stride(tensor, letter)) }
}

fn extent(tensor: &Tensor, letter: char) -> Option<usize> {
    tensor.letters.find(letter).map(|place| tensor.extents[place] as usize)
}

/// The sum of a letter's strides in a tensor, 0 where it has none.
fn stride(tensor: &Tensor, letter: char) -> usize {
    let strides = tensor.letters.chars().zip(&tensor.strides).filter(|(own, _)| *own == letter);
    strides.fold(0, |sum, (_, stride)| sum.wrapping_add_signed(*stride as isize))
}
