//! A contraction as it is handed in: three tensors, or four where C is named, and two factors.

use std::fmt;

/// A tensor: its layout and its words. Nothing is checked, so that a test can hold what is to be refused.
#[derive(Clone, PartialEq)]
pub struct Tensor {
    pub letters: Vec<u8>,
    pub extents: Vec<u32>,
    pub strides: Vec<i32>,
    pub base: u32,
    pub words: Vec<u32>,
}

impl Tensor {
    pub fn new(letters: &str, extents: &[u32], strides: &[i32], base: u32, words: &[u32]) -> Self {
        let (letters, extents) = (letters.as_bytes().to_vec(), extents.to_vec());
        Self { letters, extents, strides: strides.to_vec(), base, words: words.to_vec() }
    }

    /// One word without letters.
    pub fn scalar(word: u32) -> Self {
        Self::new("", &[], &[], 0, &[word])
    }

    /// The stride of a label, 0 where the tensor lacks it.
    pub fn stride(&self, label: u8) -> i64 {
        let axes = self.letters.iter().zip(&self.strides).filter(|(letter, _)| **letter == label);
        axes.map(|(_, stride)| i64::from(*stride)).sum()
    }

    /// A tensor with an extent 0 has no entries.
    pub fn is_empty(&self) -> bool {
        self.extents.contains(&0)
    }

    /// One axis more, after the others.
    pub fn push(&mut self, letter: u8, extent: u32, stride: i32) {
        self.letters.push(letter);
        self.extents.push(extent);
        self.strides.push(stride);
    }
}

/// The layout, and the words as far as a reader of a failed test wants them.
impl fmt::Debug for Tensor {
    fn fmt(&self, f: &mut fmt::Formatter<'_>) -> fmt::Result {
        let shown = &self.words[..self.words.len().min(64)];
        write!(f, "{:?} {:?} {:?}", self.letters.escape_ascii().to_string(), self.extents, self.strides)?;
        write!(f, " base {}, {} words {:?}", self.base, self.words.len(), shown)
    }
}

#[derive(Clone, Debug, PartialEq)]
pub struct Case {
    pub a: Tensor,
    pub b: Tensor,
    /// The tensor that a sum starts from where it is named.
    pub c: Option<Tensor>,
    pub d: Tensor,
    pub alpha: u32,
    pub beta: u32,
}

impl Case {
    /// A, B, C where it is named, and D.
    pub fn tensors(&self) -> Vec<&Tensor> {
        self.named().into_iter().map(|(_, t)| t).collect()
    }

    /// The same with their names.
    pub fn named(&self) -> Vec<(&'static str, &Tensor)> {
        let c = self.c.iter().map(|c| ("C", c));
        [("A", &self.a), ("B", &self.b)].into_iter().chain(c).chain([("D", &self.d)]).collect()
    }

    /// A is 0, B is 1, D is 2, and C is 3 where it is named.
    pub fn tensor_mut(&mut self, which: usize) -> &mut Tensor {
        match which {
            0 => &mut self.a,
            1 => &mut self.b,
            2 => &mut self.d,
            _ => self.c.as_mut().expect("a contraction that names C"),
        }
    }
}

/// What a call answers, and D's words after it.
#[derive(Clone, Debug, PartialEq)]
pub struct Outcome {
    pub answer: u32,
    pub words: Vec<u32>,
}

/// Fails at the first word of a slice that is not as expected.
pub fn same_words(name: &str, after: &impl fmt::Debug, found: &[u32], expected: &[u32]) {
    assert_eq!(found.len(), expected.len(), "the words of {name} after {after:?}");
    if let Some(place) = (0..found.len()).find(|&place| found[place] != expected[place]) {
        panic!("word {place} of {name} is {} and not {} after {after:?}", found[place], expected[place]);
    }
}
