//! Contractions by a formula as `ik,kj>ij`, with packed tensors and random words; and with C beside them.

use super::case::{Case, Tensor};
use super::groups::in_order;
use super::rng::Rng;

/// A tensor of these labels whose strides grow in this order, by extents or, with a gap, by a word more for each.
/// Without a gap they are 0 after an extent 0, and there are no words.
fn tensor(rng: &mut Rng, labels: &[(u8, u32)], order: &str, gap: i32) -> Tensor {
    let mut t = Tensor::new("", &[], &[], 0, &[]);
    labels.iter().for_each(|(letter, extent)| t.push(*letter, *extent, 0));
    let mut next = 1;
    for letter in order.bytes() {
        let axis = t.letters.iter().position(|l| *l == letter).expect("a label of the tensor");
        t.strides[axis] = next;
        next = next * t.extents[axis] as i32 + gap;
    }
    t.words = (0..next).map(|_| rng.word()).collect();
    t
}

/// Turns an axis round, so that it counts down. With an extent 0 any base will do.
pub fn reverse(t: &mut Tensor, axis: usize) {
    let last = t.extents[axis].saturating_sub(1) as i32 * t.strides[axis];
    t.base = (t.base as i32 + last) as u32;
    t.strides[axis] = -t.strides[axis];
}

/// Operands as in `ik,kj>ij`, where each of the letters has its extent. An operand's axes stand in the order of the
/// letters, and its strides grow in the order of the formula.
pub fn contraction(seed: u64, formula: &str, letters: &str, extents: &[u32], gap: i32) -> Case {
    println!("seed {seed:#x}: {formula}, {letters} {extents:?}");
    let mut rng = Rng::new(seed);
    let mut operand = |own: &str, gap| {
        let mut labels: Vec<_> = letters.bytes().zip(extents.iter().copied()).collect();
        labels.retain(|(letter, _)| own.as_bytes().contains(letter));
        tensor(&mut rng, &labels, own, gap)
    };
    let names: Vec<&str> = formula.split([',', '>']).collect();
    let (a, b, d) = (operand(names[0], 0), operand(names[1], 0), operand(names[2], gap));
    Case { a, b, c: None, d, alpha: 0x9e37_79b9, beta: u32::MAX }
}

/// The contraction as it is, and with C in layouts of three sorts: as D's letters stand; in the reverse order, counting
/// down, with gaps; and one word for all entries.
pub fn with_c_too(case: &Case) -> Vec<Case> {
    let labels = in_order(&[&case.d]);
    let mut letters: Vec<u8> = labels.iter().map(|(letter, _)| *letter).collect();
    let mut rng = Rng::new(letters.len() as u64);
    let mut of_order = |letters: &[u8], gap| tensor(&mut rng, &labels, &String::from_utf8_lossy(letters), gap);
    let along = of_order(&letters, 0);
    letters.reverse();
    let mut against = of_order(&letters, 2);
    (0..labels.len()).for_each(|axis| reverse(&mut against, axis));
    let one_word = Tensor { strides: vec![0; labels.len()], words: vec![0x8000_0003], ..along.clone() };
    let with_c = |c: Option<Tensor>| Case { c, ..case.clone() };
    [None, Some(along), Some(against), Some(one_word)].map(with_c).into()
}
