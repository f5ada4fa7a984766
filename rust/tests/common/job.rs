//! Job files: what one holds, and how its records are written.

use super::case::{Case, Tensor};
use super::request::Request;
use nezgrak::{OutputIndex, TileSizes};

/// How many words the program's work slice has.
const WORK: usize = 16_384;

/// What a job file holds. Nothing is checked, so that a test can write what is to be refused.
#[derive(Clone, Debug, PartialEq)]
pub struct Job {
    pub case: Case,
    /// Whether the words of A, B and D are written as bytes. Those of C never are.
    pub as_bytes: [bool; 3],
    /// Rows, columns and depth of a tile.
    pub sizes: [u16; 3],
    pub done: u32,
    pub budget: u32,
}

impl Job {
    /// Document 01's example, with its budget of 3.
    pub fn example() -> Self {
        let a = Tensor::new("ik", &[2, 3], &[1, 2], 0, &[1, 2, 3, 4, 5, 6]);
        let b = Tensor::new("kj", &[3, 2], &[1, 3], 0, &[1, 0, 2, 0, 1, 1]);
        let d = Tensor::new("ij", &[2, 2], &[1, 2], 0, &[100, 200, 300, 400]);
        let case = Case { a, b, c: None, d, alpha: 1, beta: 2 };
        Self { case, as_bytes: [false; 3], sizes: [1, 1, 2], done: 0, budget: 3 }
    }

    /// The same with C, which has a word for each j.
    pub fn example_with_c() -> Self {
        let mut job = Self::example();
        job.case.c = Some(Tensor::new("ij", &[2, 2], &[0, 1], 0, &[10, 20]));
        job
    }

    /// A tile call as a job. A number that has no room in its field becomes the largest that has.
    pub fn of(r: &Request) -> Self {
        let size = |size| u16::try_from(size).unwrap_or(u16::MAX);
        let count = |count| u32::try_from(count).unwrap_or(u32::MAX);
        Self {
            case: r.case.clone(),
            as_bytes: [false; 3],
            sizes: [size(r.sizes.rows), size(r.sizes.cols), size(r.sizes.depth)],
            done: count(r.done),
            budget: count(r.budget),
        }
    }

    /// The tile call that the program makes. What work holds before it can't be seen.
    pub fn request(&self) -> Request {
        let [rows, cols, depth] = self.sizes.map(u32::from);
        let (case, sizes) = (self.case.clone(), TileSizes { rows, cols, depth });
        let (done, budget) = (u64::from(self.done), u64::from(self.budget));
        Request { case, sizes, done, budget, work: vec![0; WORK], index: OutputIndex::new(0, 0, 0) }
    }

    /// Has the words of this tensor, A 0, B 1 or D 2, written as bytes, and makes them such words.
    pub fn write_as_bytes(&mut self, which: usize) {
        self.as_bytes[which] = true;
        self.case.tensor_mut(which).words.iter_mut().for_each(|word| *word &= 255);
    }

    /// The records in their order: seven, or nine where C is named.
    pub fn records(&self) -> Vec<Vec<u8>> {
        let Case { a, b, c, d, .. } = &self.case;
        let of_tensor = |name, t, as_bytes| [layout(name, t), words(name, &t.words, as_bytes)];
        let [of_a, of_b] = [of_tensor(b'A', a, self.as_bytes[0]), of_tensor(b'B', b, self.as_bytes[1])];
        let of_c = c.iter().flat_map(|c| of_tensor(b'C', c, false));
        let of_d = of_tensor(b'D', d, self.as_bytes[2]);
        of_a.into_iter().chain(of_b).chain(of_c).chain(of_d).chain([self.go()]).collect()
    }

    pub fn file(&self) -> Vec<u8> {
        self.records().concat()
    }

    fn go(&self) -> Vec<u8> {
        let factors = [self.case.alpha, self.case.beta].map(u32::to_le_bytes).concat();
        let counts = [self.done, self.budget].map(u32::to_le_bytes).concat();
        [b"GO".to_vec(), factors, self.sizes.map(u16::to_le_bytes).concat(), counts].concat()
    }
}

fn layout(name: u8, t: &Tensor) -> Vec<u8> {
    let mut record = vec![b'L', name, t.letters.len() as u8];
    record.extend(&t.letters);
    record.extend(t.extents.iter().flat_map(|extent| extent.to_le_bytes()));
    record.extend(t.strides.iter().flat_map(|stride| stride.to_le_bytes()));
    record.extend(t.base.to_le_bytes());
    record
}

fn words(name: u8, words: &[u32], as_bytes: bool) -> Vec<u8> {
    let mut record = vec![if as_bytes { b'Y' } else { b'W' }, name];
    record.extend((words.len() as u32).to_le_bytes());
    match as_bytes {
        true => record.extend(words.iter().map(|word| *word as u8)),
        false => record.extend(words.iter().flat_map(|word| word.to_le_bytes())),
    }
    record
}
