//! Random contractions, with C or without: accepted ones by construction, and ones that an edit spoils.

use super::case::{Case, Tensor};
use super::make_empty::strides_base_and_words;
use super::rng::Rng;

const LIMIT: i32 = 16_777_216;

/// What the random contractions of one kind may have.
pub struct Kind {
    /// The most different labels.
    pub labels: usize,
    /// The extents to choose from. In about one contraction of six some labels have extent 0 instead.
    pub extents: &'static [u32],
    /// The most terms in all, the product of all extents before some are 0.
    pub terms: u32,
    /// Whether letters stand, and strides grow, in one order in all tensors, so that labels often fold.
    pub aligned: bool,
}

struct Label {
    letter: u8,
    extent: u32,
    /// Bit 0, 1 and 2: whether A, B and D have it.
    tensors: usize,
}

/// A contraction without C that passes every question.
pub fn accepted(rng: &mut Rng, kind: &Kind) -> Case {
    let labels = labels(rng, kind);
    let [a, b, d] = [0, 1, 2].map(|which| tensor(rng, kind, &labels, which));
    Case { a, b, c: None, d, alpha: factor(rng), beta: factor(rng) }
}

/// The same with C.
pub fn accepted_with_c(rng: &mut Rng, kind: &Kind) -> Case {
    let case = accepted(rng, kind);
    let c = c_beside(rng, kind, &case.d);
    Case { c: Some(c), ..case }
}

/// With C or without.
pub fn accepted_of_both_forms(rng: &mut Rng, kind: &Kind) -> Case {
    if rng.once_in(2) {
        accepted_with_c(rng, kind)
    } else {
        accepted(rng, kind)
    }
}

fn labels(rng: &mut Rng, kind: &Kind) -> Vec<Label> {
    let mut letters: Vec<u8> = (b'A'..=b'Z').chain(b'a'..=b'z').collect();
    rng.shuffle(&mut letters);
    letters.truncate(rng.below(kind.labels + 1));
    let mut terms = 1;
    let mut label = |letter| {
        let extent = Some(rng.pick(kind.extents)).filter(|extent| terms * extent <= kind.terms).unwrap_or(1);
        terms *= extent;
        Label { letter, extent, tensors: 1 + rng.below(7) }
    };
    let mut labels: Vec<Label> = letters.into_iter().map(&mut label).collect();
    if !labels.is_empty() && rng.once_in(5) {
        empty_some(rng, &mut labels);
    }
    labels
}

/// Gives extent 0 to one label, or to a few.
fn empty_some(rng: &mut Rng, labels: &mut [Label]) {
    for _ in 0..rng.pick(&[1, 1, 1, 2, 3]) {
        let one = rng.below(labels.len());
        labels[one].extent = 0;
    }
}

fn tensor(rng: &mut Rng, kind: &Kind, labels: &[Label], which: usize) -> Tensor {
    let mut own: Vec<&Label> = labels.iter().filter(|label| label.tensors >> which & 1 == 1).collect();
    if !kind.aligned {
        rng.shuffle(&mut own);
    }
    own.truncate(8);
    let own: Vec<_> = own.into_iter().map(|label| (label.letter, label.extent)).collect();
    tensor_of(rng, kind, &own, which)
}

/// D's labels, mostly in another order.
fn c_beside(rng: &mut Rng, kind: &Kind, d: &Tensor) -> Tensor {
    let mut own: Vec<(u8, u32)> = Vec::new();
    for label in d.letters.iter().copied().zip(d.extents.iter().copied()) {
        if !own.contains(&label) {
            own.push(label);
        }
    }
    if !kind.aligned || rng.once_in(6) {
        rng.shuffle(&mut own);
    }
    tensor_of(rng, kind, &own, 3)
}

/// A tensor of these letters and extents. A is 0, B 1, D 2 and C 3.
fn tensor_of(rng: &mut Rng, kind: &Kind, own: &[(u8, u32)], which: usize) -> Tensor {
    let mut t = Tensor::new("", &[], &[], 0, &[]);
    own.iter().for_each(|(letter, extent)| t.push(*letter, *extent, 0));
    if t.is_empty() {
        strides_base_and_words(rng, &mut t);
    } else {
        match (kind.aligned && !rng.once_in(8), which) {
            (true, _) => strides_packed(&mut t),
            (false, 2) => strides_apart(rng, &mut t),
            (false, _) => strides_of_any_kind(rng, &mut t),
        }
        base_and_words(rng, &mut t);
    }
    repeat_letters(rng, &mut t);
    t
}

/// The axes in a random order.
fn order(rng: &mut Rng, t: &Tensor) -> Vec<usize> {
    let mut axes: Vec<usize> = (0..t.letters.len()).collect();
    rng.shuffle(&mut axes);
    axes
}

fn sign(rng: &mut Rng) -> i32 {
    rng.pick(&[1, 1, -1])
}

fn strides_packed(t: &mut Tensor) {
    let mut packed = 1;
    for (stride, extent) in t.strides.iter_mut().zip(&t.extents) {
        *stride = packed;
        packed *= *extent as i32;
    }
}

/// Each stride's size exceeds what the smaller ones reach, often by more than 1, so that gaps stay. Where the extent
/// is 1 any stride will do.
fn strides_apart(rng: &mut Rng, t: &mut Tensor) {
    let mut reach = 0;
    for axis in order(rng, t) {
        if t.extents[axis] == 1 {
            t.strides[axis] = rng.pick(&[0, 1, reach, LIMIT, -LIMIT]);
        } else {
            let size = reach + 1 + rng.pick(&[0, 0, 0, 1, 2, 5]);
            t.strides[axis] = sign(rng) * size;
            reach += (t.extents[axis] as i32 - 1) * size;
        }
    }
}

/// Packed in some order, or with strides that let entries share words.
fn strides_of_any_kind(rng: &mut Rng, t: &mut Tensor) {
    let most = rng.pick(&[0, 0, 1, 9, 300]);
    let mut packed = 1;
    for axis in order(rng, t) {
        let any = if t.extents[axis] == 1 { rng.pick(&[most, LIMIT]) } else { most };
        t.strides[axis] = if any == 0 { sign(rng) * packed } else { rng.between(-any, any) };
        packed *= t.extents[axis] as i32;
    }
}

/// A slice that holds every entry, mostly with nothing to spare.
fn base_and_words(rng: &mut Rng, t: &mut Tensor) {
    let reach = |sign: i32| -> i32 {
        let up = |(extent, stride): (&u32, &i32)| (*extent as i32 - 1) * (stride * sign).max(0);
        t.extents.iter().zip(&t.strides).map(up).sum()
    };
    let spare = [0, 0, 1, 4];
    t.base = (reach(-1) + rng.pick(&spare)) as u32;
    let length = t.base + (reach(1) + 1 + rng.pick(&spare)) as u32;
    let style = rng.below(3);
    t.words = (0..length).map(|_| word(rng, style)).collect();
}

fn word(rng: &mut Rng, style: usize) -> u32 {
    match style {
        0 => rng.word() % 10,
        1 => rng.pick(&[0, 1, 1 << 31, u32::MAX, u32::MAX - 1]),
        _ => rng.word(),
    }
}

fn factor(rng: &mut Rng) -> u32 {
    let any = rng.word();
    rng.pick(&[0, 1, 1, u32::MAX, any % 10, any])
}

/// Writes a letter twice, its stride split in two, so that the label addresses the same words.
fn repeat_letters(rng: &mut Rng, t: &mut Tensor) {
    while (1..8).contains(&t.letters.len()) && rng.once_in(4) {
        let axis = rng.below(t.letters.len());
        let most = rng.pick(&[9, LIMIT]);
        let part = rng.between(-most, most);
        if (t.strides[axis] - part).abs() <= LIMIT {
            let (letter, extent) = (t.letters[axis], t.extents[axis]);
            let place = rng.below(t.letters.len() + 1);
            t.strides[axis] -= part;
            t.letters.insert(place, letter);
            t.extents.insert(place, extent);
            t.strides.insert(place, part);
        }
    }
}

/// One small edit, which most often makes one question fail, and sometimes none. Edit n is meant for question n; 10
/// turns an axis round, and 11 leaves a tensor without entries. Where C is named, one in five is meant for 30, and 7 is
/// not for C or D, whose letters it would make differ.
pub fn spoil(rng: &mut Rng, case: &mut Case) {
    if case.c.is_some() && rng.once_in(5) {
        return other_letters(rng, case);
    }
    let edit = rng.pick(&[1, 2, 3, 4, 5, 6, 6, 7, 8, 9, 9, 9, 10, 11]);
    let which = match (edit, &case.c) {
        (9, _) => 2,
        (7, Some(_)) => rng.below(2),
        (_, Some(_)) => rng.below(4),
        (_, None) => rng.below(3),
    };
    let t = case.tensor_mut(which);
    match edit {
        1 => (t.letters.len()..9).for_each(|_| t.push(rng.pick(b"xyzXYZ"), 1, 0)),
        2 => miscount(rng, t),
        7 => b"yz".iter().for_each(|letter| t.push(*letter, rng.pick(&[32_769, 65_535, 65_536]), 0)),
        8 => misplace(rng, t),
        11 => t.push(rng.pick(b"uvwxyz"), 0, 0),
        _ => match t.letters.len().min(t.extents.len()).min(t.strides.len()) {
            0 => t.base = rng.pick(&[1, LIMIT as u32, LIMIT as u32 + 1]),
            axes => spoil_axis(rng, t, edit, axes),
        },
    }
}

/// Gives C, or D, one more letter, of A's or another, or takes one of its axes away. A letter that it has is repeated.
fn other_letters(rng: &mut Rng, case: &mut Case) {
    let of_a = case.a.letters.iter().copied().zip(case.a.extents.iter().copied()).collect::<Vec<_>>();
    let t = case.tensor_mut(rng.pick(&[2, 3, 3, 3]));
    let axes = t.letters.len().min(t.extents.len()).min(t.strides.len());
    match rng.below(3) {
        0 if !of_a.is_empty() => {
            let (letter, extent) = rng.pick(&of_a);
            t.push(letter, extent, 0);
        }
        1 if axes > 0 => {
            let axis = rng.below(axes);
            t.letters.remove(axis);
            t.extents.remove(axis);
            t.strides.remove(axis);
        }
        _ => t.push(rng.pick(b"uvwxyz"), 1, 0),
    }
}

fn miscount(rng: &mut Rng, t: &mut Tensor) {
    match rng.below(4) {
        0 => t.extents.push(1),
        1 => t.strides.push(1),
        2 => drop(t.extents.pop()),
        _ => drop(t.strides.pop()),
    }
}

fn misplace(rng: &mut Rng, t: &mut Tensor) {
    match rng.below(3) {
        0 => drop(t.words.pop()),
        1 => t.base += 1,
        _ => t.base = t.base.saturating_sub(1),
    }
}

fn spoil_axis(rng: &mut Rng, t: &mut Tensor, edit: usize, axes: usize) {
    let axis = rng.below(axes);
    match edit {
        3 => t.letters[axis] = rng.pick(b"@[`{5 \0\x7f\xc1"),
        4 => t.extents[axis] = rng.pick(&[65_537, 1 << 31, u32::MAX]),
        5 => t.strides[axis] = rng.pick(&[LIMIT + 1, -LIMIT - 1, i32::MAX, i32::MIN]),
        6 => t.extents[axis] = if rng.once_in(4) { 0 } else { t.extents[axis].saturating_add(1) },
        9 => t.strides[axis] = t.strides[axis].signum() * rng.pick(&[0, 1, 1, 2]),
        _ => t.strides[axis] = t.strides[axis].saturating_neg(),
    }
}
