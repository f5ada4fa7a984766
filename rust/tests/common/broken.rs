//! A sound contraction and a sound request of tiles, with C and without, and ways to make one question of them fail.

use super::case::{Case, Tensor};
use super::request::Request;
use nezgrak::{OutputIndex, TileSizes};

/// A(i,k) × B(k,j) into D(i,j), with no word to spare in any slice, so that each slip of an address is outside.
pub fn sound() -> Case {
    Case {
        a: Tensor::new("ik", &[2, 3], &[1, 2], 0, &[3, 1, 4, 1, 5, 9]),
        b: Tensor::new("kj", &[3, 2], &[-1, 3], 2, &[2, 6, 5, 3, 5, 8]),
        c: None,
        d: Tensor::new("ij", &[2, 2], &[-1, 2], 1, &[9, 7, 9, 3]),
        alpha: 3,
        beta: 2,
    }
}

/// The same with C, which has its letters in another order, its entries at other places than D, and no word to spare.
pub fn sound_with_c() -> Case {
    Case { c: Some(Tensor::new("ji", &[2, 2], &[-1, 2], 1, &[4, 6, 8, 5])), ..sound() }
}

/// Four tiles, of which the second and the third are to run, with no word of work to spare.
pub fn sound_request() -> Request {
    let sizes = TileSizes { rows: 1, cols: 2, depth: 2 };
    let (work, index) = ((11..17).collect(), OutputIndex::new(0, 1, 1));
    Request { case: sound(), sizes, done: 1, budget: 2, work, index }
}

/// The same with C.
pub fn sound_request_with_c() -> Request {
    Request { case: sound_with_c(), ..sound_request() }
}

/// A way to make a question fail.
pub type Break = Box<dyn Fn(&mut Request)>;

/// Every way to break the question of that number where C is not named, each of which breaks no earlier one.
pub fn ways(number: u32) -> Vec<Break> {
    match number {
        10 => with_values(&[0, 65, u32::MAX], |r, rows| r.sizes.rows = rows)
            .chain(with_values(&[0, 65, u32::MAX], |r, cols| r.sizes.cols = cols))
            .chain(with_values(&[0, 129, u32::MAX], |r, depth| r.sizes.depth = depth))
            .collect(),
        11 => with_values(&[5, 0], |r, length| r.work.truncate(length)).collect(),
        12 => with_values(&[5, 1 << 32, u64::MAX], |r, done| r.done = done).collect(),
        13 => with_values(&[1, 1 << 32, u64::MAX], |r, batch| r.index.batch = batch)
            .chain(with_values(&[2, 1 << 32, u64::MAX], |r, row| r.index.row = row))
            .chain(with_values(&[2, 1 << 32, u64::MAX], |r, column| r.index.column = column))
            .collect(),
        _ => tensors_of(number).chunks(1).flat_map(|which| of_tensors(number, which)).collect(),
    }
}

/// The same where C is named. Labels that D alone or C alone has more break 30 and not 7.
pub fn ways_with_c(number: u32) -> Vec<Break> {
    match number {
        1..=6 | 8 => ways(number).into_iter().chain(of_tensors(number, &[3])).collect(),
        7 => [&[0][..], &[1], &[2, 3]].into_iter().flat_map(|which| of_tensors(7, which)).collect(),
        30 => with_values(OTHER_LETTERS, |r, edit| edit(&mut r.case)).collect(),
        _ => ways(number),
    }
}

/// Every edit for this question, of all of these tensors at once.
fn of_tensors(number: u32, tensors: &'static [usize]) -> impl Iterator<Item = Break> {
    edits(number).iter().map(move |edit| -> Break {
        Box::new(move |r| tensors.iter().for_each(|which| edit(r.case.tensor_mut(*which))))
    })
}

/// Edits after which C's different letters are not D's: one for another, one less, one more in C, and one more in D.
const OTHER_LETTERS: &[fn(&mut Case)] = &[
    |case| case.tensor_mut(3).letters[1] = b'q',
    |case| case.tensor_mut(3).letters[1] = b'I',
    |case| case.tensor_mut(3).letters[0] = b'i',
    |case| case.tensor_mut(3).letters[1] = b'j',
    |case| case.tensor_mut(3).push(b'q', 1, 0),
    |case| case.tensor_mut(3).push(b'k', 3, 0),
    |case| case.d.push(b'q', 1, 0),
    |case| case.d.push(b'k', 3, 0),
];

fn with_values<T: Copy + 'static>(values: &'static [T], set: fn(&mut Request, T)) -> impl Iterator<Item = Break> {
    values.iter().map(move |value| -> Break { Box::new(move |r| set(r, *value)) })
}

/// The tensors of which a question can be broken: A 0, B 1, D 2.
pub fn tensors_of(number: u32) -> &'static [usize] {
    if number == 9 {
        &[2]
    } else {
        &[0, 1, 2]
    }
}

type Edit = fn(&mut Tensor);

/// Edits that each make the question of that number fail for the tensor, and no earlier one.
pub fn edits(number: u32) -> &'static [Edit] {
    match number {
        1 => &[|t| fill_to(t, 9), |t| fill_to(t, 30)],
        2 => &[
            |t| t.extents.push(1),
            |t| t.strides.push(1),
            |t| t.extents.truncate(1),
            |t| t.strides.truncate(1),
            |t| t.letters.truncate(1),
        ],
        3 => &[|t| t.push(b'@', 1, 0), |t| t.push(0, 1, 0), |t| t.push(b'a' + 128, 1, 0)],
        4 => &[|t| t.push(b'q', 65_537, 0), |t| t.push(b'q', 1 << 31, 0), |t| t.push(b'q', u32::MAX, 0)],
        5 => &[
            |t| t.push(b'r', 1, 16_777_217),
            |t| t.push(b'r', 1, -16_777_217),
            |t| t.push(b'r', 1, i32::MIN),
            |t| t.base = 16_777_217,
            |t| t.base = u32::MAX,
        ],
        6 => &[|t| t.push(t.letters[0], 4, 0), |t| t.extents[0] += 1, |t| t.extents[0] = 0, two_extents],
        7 => &[
            |t| large(t, &[32_768, 32_769]),
            |t| large(t, &[65_536, 65_536]),
            |t| large(t, &[65_536, 65_536, 65_536, 65_536]),
            |t| large(t, &[32_768, 0, 32_769]),
        ],
        8 => &[
            |t| t.words.truncate(t.words.len() - 1),
            |t| t.base += 1,
            |t| t.strides[0] = -t.strides[0],
            |t| t.words.clear(),
        ],
        9 => &[|t| overlap(t, [-1, 1], 1, 3), |t| overlap(t, [-1, 0], 1, 2), |t| overlap(t, [-2, 2], 2, 5)],
        _ => unreachable!("no question of the plain call"),
    }
}

/// Letters of extent 1 until there are that many.
fn fill_to(t: &mut Tensor, count: usize) {
    while t.letters.len() < count {
        t.push(b'l' + t.letters.len() as u8 % 8, 1, 0);
    }
}

/// A letter that no other tensor has, with two extents.
fn two_extents(t: &mut Tensor) {
    t.push(b's', 1, 0);
    t.push(b's', 2, 0);
}

/// New labels of these extents that stay on one word.
fn large(t: &mut Tensor, extents: &[u32]) {
    for (letter, extent) in (b'u'..).zip(extents) {
        t.push(letter, *extent, 0);
    }
}

/// Strides that let two entries of D share a word, over a slice that again has no word to spare.
fn overlap(t: &mut Tensor, strides: [i32; 2], base: u32, length: usize) {
    t.strides[..2].copy_from_slice(&strides);
    t.base = base;
    t.words.resize(length, 6);
}
