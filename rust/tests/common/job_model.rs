//! The model of the job program: the bytes of a job file to the text that answers it.

use super::case::{Case, Tensor};
use super::job::Job;
use super::panels::Model;
use super::questions::{first_no_of_tiles, labels};

/// More terms than this take the model too long.
const TERMS: u128 = 1 << 22;

/// What the program has to print.
pub fn answer(file: &[u8]) -> String {
    read(file).and_then(|job| accepted(&job)).unwrap_or_else(refused)
}

pub fn refused(number: u32) -> String {
    format!("refused {number}\n")
}

/// The number of terms of all sums, the product of all extents.
pub fn terms(case: &Case) -> u128 {
    labels(&case.tensors()).into_values().map(u128::from).fold(1, u128::saturating_mul)
}

/// Whether a file is accepted and its sums are too long for the model.
pub fn is_long(file: &[u8]) -> bool {
    read(file).is_ok_and(|job| terms(&job.case) > TERMS && first_no_of_tiles(&job.request()) == 0)
}

fn accepted(job: &Job) -> Result<String, u32> {
    let request = job.request();
    match first_no_of_tiles(&request) {
        0 => {}
        number => return Err(number),
    }
    assert!(terms(&job.case) <= TERMS, "too many terms for the model: {job:?}");
    let model = Model::of(&job.case, request.sizes);
    let total = model.cut.total();
    let t = request.done + request.budget.min(total - request.done);
    let words = model.words(&job.case.d.words, request.done, t);
    let lines = words.iter().zip(letters(&model, t, words.len())).map(|(word, letter)| format!("{word} {letter}\n"));
    Ok(format!("tiles {t} of {total}\n") + &lines.collect::<String>())
}

/// Old, part or final for each word after t tiles, or outside the layout.
fn letters(model: &Model, t: u64, count: usize) -> Vec<char> {
    let mut letters = vec!['-'; count];
    for index in model.indices() {
        letters[model.place(index)] = ['o', 'p', 'f'][model.state(t, index) as usize];
    }
    letters
}

/// What a file holds, or the number that refuses it while it is read.
pub fn read(file: &[u8]) -> Result<Job, u32> {
    let mut rest = Rest(file);
    let (a, a_bytes) = rest.tensor(b'A', b"WY")?;
    let (b, b_bytes) = rest.tensor(b'B', b"WY")?;
    let c = rest.c()?;
    let (d, d_bytes) = rest.tensor(b'D', b"WY")?;
    rest.mark(&[*b"GO"])?;
    let go = rest.take(22)?;
    if !rest.0.is_empty() {
        return Err(22);
    }
    let (factors, counts) = (numbers(&go[..8]), numbers(&go[14..]));
    let size = |place: usize| u16::from(go[place]) + 256 * u16::from(go[place + 1]);
    Ok(Job {
        case: Case { a, b, c, d, alpha: factors[0], beta: factors[1] },
        as_bytes: [a_bytes, b_bytes, d_bytes],
        sizes: [size(8), size(10), size(12)],
        done: counts[0],
        budget: counts[1],
    })
}

/// What is left of a file. Each step gives what it found, or the number that refuses.
struct Rest<'a>(&'a [u8]);

impl<'a> Rest<'a> {
    fn take(&mut self, count: usize) -> Result<&'a [u8], u32> {
        if self.0.len() < count {
            return Err(21);
        }
        let (taken, rest) = self.0.split_at(count);
        self.0 = rest;
        Ok(taken)
    }

    fn mark(&mut self, allowed: &[[u8; 2]]) -> Result<[u8; 2], u32> {
        let mark = self.take(2)?;
        allowed.iter().copied().find(|one| one == mark).ok_or(20)
    }

    /// The two records of C, which may follow B's words. It has no byte words.
    fn c(&mut self) -> Result<Option<Tensor>, u32> {
        match self.0.starts_with(b"LC") {
            true => self.tensor(b'C', b"W").map(|(c, _)| Some(c)),
            false => Ok(None),
        }
    }

    /// The two records of a tensor, the second of one of these kinds, and whether its words were bytes.
    fn tensor(&mut self, name: u8, kinds: &[u8]) -> Result<(Tensor, bool), u32> {
        let layout = self.layout(name)?;
        let [kind, _] = self.mark(&kinds.iter().map(|kind| [*kind, name]).collect::<Vec<_>>())?;
        let count = numbers(self.take(4)?)[0] as usize;
        if count > 4_096 {
            return Err(23);
        }
        let as_bytes = kind == b'Y';
        let words = match as_bytes {
            true => self.take(count)?.iter().map(|byte| u32::from(*byte)).collect(),
            false => numbers(self.take(4 * count)?),
        };
        Ok((Tensor { words, ..layout }, as_bytes))
    }

    fn layout(&mut self, name: u8) -> Result<Tensor, u32> {
        self.mark(&[[b'L', name]])?;
        let rank = usize::from(self.take(1)?[0]);
        if rank > 8 {
            return Err(1);
        }
        let (letters, rest) = self.take(9 * rank + 4)?.split_at(rank);
        let numbers = numbers(rest);
        let strides = numbers[rank..2 * rank].iter().map(|stride| *stride as i32).collect();
        let (letters, extents) = (letters.to_vec(), numbers[..rank].to_vec());
        Ok(Tensor { letters, extents, strides, base: numbers[2 * rank], words: Vec::new() })
    }
}

/// Numbers of 4 bytes, the lowest byte first.
fn numbers(bytes: &[u8]) -> Vec<u32> {
    let number = |four: &[u8]| four.iter().rev().fold(0, |high, byte| high * 256 + u32::from(*byte));
    bytes.chunks(4).map(number).collect()
}
