//! What only the words of a layout can say: letters above 255, counts of any size, and words past the counts.

use crate::common::broken::{sound_request, sound_request_with_c};
use crate::common::case::{same_words, Case, Outcome, Tensor};
use crate::common::direct;
use crate::common::lent::words_of;
use crate::common::make::{accepted_of_both_forms, Kind};
use crate::common::panels;
use crate::common::request::Request;
use crate::common::rng::Rng;
use nezgrak::{Contraction, Layout, Refusal};

const KIND: Kind = Kind { labels: 5, extents: &[1, 2, 3], terms: 60, aligned: false };

/// The words of the layouts of A, B, C where it is named, and D.
type Layouts = Vec<[u32; 28]>;

fn layouts_of(case: &Case) -> Layouts {
    case.tensors().into_iter().map(words_of).collect()
}

/// The contraction of these layouts, over the words of a case.
fn contraction<'a>(case: &'a Case, layouts: &Layouts) -> Contraction<'a> {
    let layout = |which: usize| Layout::from_words(layouts[which]);
    let tensor = |which: usize, t: &'a Tensor| nezgrak::Tensor::new(layout(which), &t.words);
    let (a, b, d) = (tensor(0, &case.a), tensor(1, &case.b), layout(layouts.len() - 1));
    let without_c = Contraction::new(a, b, d).with_alpha(case.alpha).with_beta(case.beta);
    case.c.as_ref().map_or(without_c, |c| without_c.with_c(tensor(2, c)))
}

/// A sound request without C, and one with it.
fn both_forms() -> [Request; 2] {
    [sound_request(), sound_request_with_c()]
}

/// The answers of the plain call, a tile call and a state question. A call that is refused changes no word.
fn answers(r: &Request, layouts: &Layouts) -> [u32; 3] {
    let contraction = contraction(&r.case, layouts);
    let number = |refusal: Refusal| refusal.number();
    let (mut plain, mut tiled, mut work) = (r.case.d.words.clone(), r.case.d.words.clone(), r.work.clone());
    let found = [
        contraction.contract(&mut plain).map_or_else(number, |()| 0),
        contraction.run_tiles(&mut tiled, r.sizes, &mut work, r.done, r.budget).map_or_else(number, |_| 0),
        contraction.state(&tiled, r.sizes, r.done, r.index).map_or_else(number, |_| 0),
    ];
    assert!(found[0] == 0 || plain == r.case.d.words, "D was changed: {layouts:?}");
    assert!(found[1] == 0 || (tiled == r.case.d.words && work == r.work), "D or work was changed: {layouts:?}");
    found
}

/// Word `place` of each tensor's layout in turn is set to each of these values: all calls give this answer.
fn each(place: usize, values: &[u32], answer: u32) {
    each_by(|words, value| words[place] = value, values, answer);
}

/// The same with the layout's words set in another way.
fn each_by(set: impl Fn(&mut [u32; 28], u32), values: &[u32], answer: u32) {
    for r in both_forms() {
        let sound = layouts_of(&r.case);
        for (which, value) in (0..sound.len()).flat_map(|which| values.iter().map(move |value| (which, *value))) {
            let mut layouts = sound.clone();
            set(&mut layouts[which], value);
            assert_eq!(answers(&r, &layouts), [answer; 3], "{value} in the layout of tensor {which}: {layouts:?}");
        }
    }
}

#[test]
fn the_sound_one_is_accepted() {
    both_forms().iter().for_each(|r| assert_eq!(answers(r, &layouts_of(&r.case)), [0; 3]));
}

/// Refused by 3, and not read as their low byte, which is that of a letter.
#[test]
fn letters_above_255() {
    let i = u32::from(b'i');
    each(0, &[255, 256, 256 + i, 512 + i, 65_536 + i, (1 << 24) + i, (1 << 31) + i, u32::MAX], 3);
    each(1, &[255, 256, 256 + i, u32::MAX], 3);
}

/// A letter above 255 of B is found before an extent 65,537 of A, and after counts of D that differ and nine letters of
/// A.
#[test]
fn question_3_in_its_place() {
    let r = sound_request();
    let mut layouts = layouts_of(&r.case);
    layouts[1][0] += 256;
    layouts[0][8] = 65_537;
    assert_eq!(answers(&r, &layouts), [3; 3]);
    layouts[2][25] = 3;
    assert_eq!(answers(&r, &layouts), [2; 3]);
    layouts[0][24] = 9;
    assert_eq!(answers(&r, &layouts), [1; 3]);
}

/// No count is taken modulo a smaller width: the low bits of these are the right count.
#[test]
fn large_counts() {
    let large = [9, 10, 28, 258, 65_538, (1 << 24) + 2, (1 << 31) + 2, u32::MAX];
    each(24, &large, 1);
    each(25, &large, 2);
    each(26, &large, 2);
    each_by(|words, count| words[24..27].fill(count), &large, 1);
}

#[test]
fn counts_apart() {
    for place in 24..27 {
        each(place, &[0, 1, 3, 4, 5, 6, 7, 8], 2);
    }
}

/// Gives a tensor the layout that the words say, as the model has it. Nine stand for any more.
fn say(words: &[u32; 28], t: &mut Tensor) {
    let of = |from: usize, count: usize| (0..words[count].min(9)).map(move |axis| words[from + axis as usize]);
    t.letters = of(0, 24).map(|word| u8::try_from(word).unwrap_or(0)).collect();
    t.extents = of(8, 25).collect();
    t.strides = of(16, 26).map(|word| word as i32).collect();
    t.base = words[27];
}

/// Changes words past the counts, and up to two of all words.
fn disturb(rng: &mut Rng, words: &mut [u32; 28]) {
    let any = |rng: &mut Rng| {
        let (word, small) = (rng.word(), rng.word() % 10);
        rng.pick(&[word, small, 256 + small, 105, 361, u32::MAX, 1 << 31, 65_536])
    };
    let counts = [words[24], words[25], words[26]];
    for (from, count) in [0, 8, 16].into_iter().zip(counts) {
        (count..8).for_each(|axis| words[from + axis as usize] = any(rng));
    }
    for _ in 0..rng.below(3) {
        words[rng.below(28)] = any(rng);
    }
}

/// Random words, with C in one of two, the plain call and a tile call against the model of the layouts that they say.
#[test]
fn random_words() {
    let mut rng = Rng::new(0x1a40_0001);
    let (mut seen, mut empty) = ([0; 31], 0);
    for _ in 0..40_000 {
        let mut said = accepted_of_both_forms(&mut rng, &KIND);
        let mut layouts = layouts_of(&said);
        let kept = rng.below(4) == 0;
        layouts.iter_mut().filter(|_| !kept).for_each(|words| disturb(&mut rng, words));
        let in_order: &[usize] = if said.c.is_some() { &[0, 1, 3, 2] } else { &[0, 1, 2] };
        in_order.iter().zip(&layouts).for_each(|(which, words)| say(words, said.tensor_mut(*which)));
        let found = plain(&said, &layouts);
        assert_eq!(found.answer, direct::outcome(&said).answer, "{said:?}");
        same_words("D", &said, &found.words, &direct::outcome(&said).words);
        let r = Request { case: said, ..sound_request() };
        assert_eq!(answers(&r, &layouts)[1], panels::outcome(&r).answer, "{r:?}");
        seen[found.answer as usize] += 1;
        empty += usize::from(found.answer == 0 && r.case.tensors().iter().any(|t| t.is_empty()));
    }
    assert!(seen[..6].iter().all(|count| *count > 200) && seen[30] > 50, "too few of an answer: {seen:?}");
    assert!(empty > 1_000, "only {empty} accepted with a tensor without entries");
}

fn plain(case: &Case, layouts: &Layouts) -> Outcome {
    let mut words = case.d.words.clone();
    let answer = contraction(case, layouts).contract(&mut words).map_or_else(Refusal::number, |()| 0);
    Outcome { answer, words }
}
