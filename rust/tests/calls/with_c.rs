//! Contractions that name C, with words that were worked out by hand: by the plain call, and by tile calls cut in several
//! ways.

use crate::common::both::{gives, refuses};
use crate::common::case::{Case, Tensor};
use crate::common::cutting::SIZES;
use crate::common::list::List;
use crate::common::request::Request;
use crate::common::rng::Rng;
use crate::common::tile_call::{check_ask, check_run};
use nezgrak::{Contraction, Layout, OutputIndex, TileSizes};

/// The sums over k of A(i,k) × B(k,j) are 11 and 14 for j = 0, and 8 and 10 for j = 1.
fn matrices(c: Tensor) -> Case {
    Case {
        a: Tensor::new("ik", &[2, 3], &[1, 2], 0, &[1, 2, 3, 4, 5, 6]),
        b: Tensor::new("kj", &[3, 2], &[1, 3], 0, &[1, 0, 2, 0, 1, 1]),
        c: Some(c),
        d: Tensor::new("ij", &[2, 2], &[1, 2], 0, &[100, 200, 300, 400]),
        alpha: 1,
        beta: 2,
    }
}

/// C(i,j) for `ij` with these strides and this base.
fn c(strides: [i32; 2], base: u32, words: &[u32]) -> Tensor {
    Tensor::new("ij", &[2, 2], &strides, base, words)
}

/// 2 × 3 + 10 × C into D(i), of two words.
fn scalars(c: Tensor) -> Case {
    let d = Tensor::new("i", &[2], &[1], 0, &[7, 8]);
    Case { a: Tensor::scalar(2), b: Tensor::scalar(3), c: Some(c), d, alpha: 1, beta: 10 }
}

#[test]
fn c_is_read_at_its_own_places() {
    gives(&matrices(c([1, 2], 0, &[1, 2, 3, 4])), &[13, 18, 14, 18]);
    gives(&matrices(c([2, 1], 0, &[1, 2, 3, 4])), &[13, 20, 12, 18]);
    gives(&matrices(c([3, 5], 0, &[1, 0, 0, 2, 0, 3, 0, 0, 4])), &[13, 18, 14, 18]);
}

/// The axes of `ij` and of `ji` are the same ones in another order.
#[test]
fn the_order_of_its_letters_does_not_matter() {
    gives(&matrices(Tensor::new("ji", &[2, 2], &[1, 2], 0, &[1, 2, 3, 4])), &[13, 20, 12, 18]);
    gives(&matrices(Tensor::new("ji", &[2, 2], &[2, 1], 0, &[1, 2, 3, 4])), &[13, 18, 14, 18]);
}

/// C is not asked question 9: its entries may share words.
#[test]
fn strides_of_0_and_entries_that_meet() {
    gives(&matrices(c([0, 1], 0, &[10, 20])), &[31, 34, 48, 50]);
    gives(&matrices(c([1, 0], 0, &[10, 20])), &[31, 54, 28, 50]);
    gives(&matrices(c([0, 0], 0, &[7])), &[25, 28, 22, 24]);
    gives(&matrices(c([1, 1], 0, &[1, 2, 3])), &[13, 18, 12, 16]);
    gives(&matrices(c([1, -1], 1, &[1, 2, 3])), &[15, 20, 10, 14]);
}

#[test]
fn strides_below_0() {
    gives(&matrices(c([-1, -2], 3, &[1, 2, 3, 4])), &[19, 20, 12, 12]);
    gives(&matrices(c([-1, 2], 1, &[1, 2, 3, 4])), &[15, 16, 16, 16]);
    refuses(&matrices(c([-1, -2], 2, &[1, 2, 3, 4])), 8);
}

#[test]
fn a_base_of_its_own() {
    gives(&scalars(Tensor::new("i", &[2], &[1], 3, &[9, 9, 9, 4, 5])), &[46, 56]);
    gives(&scalars(Tensor::new("i", &[2], &[-3], 4, &[9, 4, 9, 9, 5, 9])), &[56, 46]);
    refuses(&scalars(Tensor::new("i", &[2], &[1], 4, &[9, 9, 9, 4, 5])), 8);
    refuses(&scalars(Tensor::new("i", &[2], &[1], 0, &[])), 8);
}

/// A letter that C repeats is one label, whose stride is the sum of its strides.
#[test]
fn its_diagonal() {
    gives(&scalars(Tensor::new("ii", &[2, 2], &[1, 2], 0, &[1, 2, 3, 4])), &[16, 46]);
    gives(&scalars(Tensor::new("iii", &[2; 3], &[4, -1, -2], 0, &[1, 2])), &[16, 26]);
    gives(&scalars(Tensor::new("ii", &[2, 2], &[16_777_216, -16_777_216], 0, &[5])), &[56, 56]);
    gives(&matrices(Tensor::new("iji", &[2; 3], &[1, 2, 4], 0, &[1, 2, 3, 4, 5, 6, 7, 8])), &[13, 26, 14, 26]);
    refuses(&scalars(Tensor::new("ii", &[2, 2], &[1, 2], 0, &[1, 2, 3])), 8);
    refuses(&scalars(Tensor::new("ii", &[2, 3], &[1, 2], 0, &[1, 2, 3, 4])), 6);
}

/// `ii` of D and `i` of C have the same different letters. The words beside D's diagonal keep their values.
#[test]
fn a_diagonal_of_d() {
    let d = Tensor::new("ii", &[2, 2], &[1, 2], 0, &[5, 6, 7, 8]);
    gives(&Case { d, ..scalars(Tensor::new("i", &[2], &[1], 0, &[1, 2])) }, &[16, 6, 7, 26]);
}

#[test]
fn the_factors() {
    let case = matrices(c([2, 1], 0, &[1, 2, 3, 4]));
    gives(&Case { beta: 0, ..case.clone() }, &[11, 14, 8, 10]);
    gives(&Case { alpha: 0, ..case.clone() }, &[2, 6, 4, 8]);
    gives(&Case { alpha: 0, beta: 0, ..case.clone() }, &[0; 4]);
    gives(&Case { beta: u32::MAX, ..case.clone() }, &[10, 11, 6, 6]);
    gives(&Case { c: Some(c([0, 0], 0, &[1 << 31])), ..case }, &[11, 14, 8, 10]);
}

/// One tensor serves as A, as B and as C.
#[test]
fn a_slice_that_is_shared() {
    let words = [3, 5];
    let t = nezgrak::Tensor::new(Layout::new(b"i", &[2], &[1], 0), &words);
    let mut d = [100, 200];
    Contraction::new(t, t, t.layout).with_beta(10).with_c(t).contract(&mut d).expect("an accepted contraction");
    assert_eq!(d, [39, 75]);
}

/// A sum over no values is 0, so that beta × C's entry is left.
#[test]
fn a_depth_of_size_0() {
    let mut case = matrices(c([0, 1], 0, &[10, 20]));
    (case.a.extents[1], case.b.extents[0]) = (0, 0);
    gives(&case, &[20, 20, 40, 40]);
}

/// Where D has an extent 0, so has C: it has no entries, and passes 8 whatever its slice and base.
#[test]
fn an_extent_of_0() {
    let mut case = matrices(c([0, 1], 9, &[10, 20]));
    (case.a.extents[0], case.d.extents[0]) = (0, 0);
    refuses(&case, 6);
    case.tensor_mut(3).extents[0] = 0;
    gives(&case, &[100, 200, 300, 400]);
    case.tensor_mut(3).words.clear();
    gives(&case, &[100, 200, 300, 400]);
    case.d.words.clear();
    gives(&case, &[]);
    case.tensor_mut(3).base = 16_777_217;
    refuses(&case, 5);
}

/// Document 01's example with C for the old words of D: after each tile every word. A word that no tile has reached holds
/// D's old value, and panel 1 does not add C's entry again.
#[test]
fn tile_by_tile() {
    let words: [[u32; 4]; 9] = [
        [100, 200, 300, 400],
        [21, 200, 300, 400],
        [21, 22, 300, 400],
        [31, 22, 300, 400],
        [31, 34, 300, 400],
        [31, 34, 43, 400],
        [31, 34, 43, 44],
        [31, 34, 48, 44],
        [31, 34, 48, 50],
    ];
    let mut list = List::new(&matrices(c([0, 1], 0, &[10, 20])), TileSizes { rows: 1, cols: 1, depth: 2 }, 0);
    for (t, expected) in words.iter().enumerate() {
        assert_eq!(list.words(), expected, "after {t} tiles");
        list.step(0, &mut Rng::new(1));
        list.step(1, &mut Rng::new(2));
    }
    assert_eq!(list.words(), words[8]);
}

/// From tile 2 on, panel 1 adds to the first two words as they are given, and panel 0 puts C's entry for the others.
#[test]
fn a_list_that_begins_after_two_tiles() {
    let case = matrices(c([0, 1], 0, &[10, 20]));
    let mut list = List::new(&case, TileSizes { rows: 1, cols: 1, depth: 2 }, 2);
    list.step(2, &mut Rng::new(3));
    assert_eq!(list.words(), [110, 212, 300, 400]);
    list.step(u64::MAX, &mut Rng::new(4));
    assert_eq!(list.words(), [110, 212, 48, 50]);
}

/// The state says how many panels are done, whatever a word starts from.
#[test]
fn states() {
    let mut list = List::new(&matrices(c([0, 0], 0, &[0])), TileSizes { rows: 1, cols: 1, depth: 2 }, 0);
    assert_eq!(list.ask_all(), [0, 0, 0, 0]);
    list.step(3, &mut Rng::new(5));
    assert_eq!(list.ask_all(), [2, 1, 0, 0]);
    list.step(5, &mut Rng::new(6));
    assert_eq!(list.ask_all(), [2, 2, 2, 2]);
    assert_eq!(list.ask(OutputIndex::new(0, 2, 0)), Err(13));
}

/// Letters that are exactly D's pass 30. They are compared as they stand: `i` is not `I`.
#[test]
fn letters_that_are_not_exactly_ds() {
    let letters = |letters: &str, extents: &[u32]| {
        let strides = vec![0; extents.len()];
        matrices(Tensor::new(letters, extents, &strides, 0, &[7]))
    };
    gives(&letters("jiij", &[2; 4]), &[25, 28, 22, 24]);
    for (other, extents) in [
        ("", &[][..]),
        ("i", &[2]),
        ("j", &[2]),
        ("jj", &[2, 2]),
        ("iJ", &[2, 2]),
        ("Ij", &[2, 2]),
        ("ijI", &[2, 2, 2]),
        ("ik", &[2, 3]),
        ("kj", &[3, 2]),
        ("ijk", &[2, 2, 3]),
        ("kij", &[3, 2, 2]),
        ("ijz", &[2, 2, 1]),
        ("ijz", &[2, 2, 0]),
        ("abcdefgh", &[1; 8]),
    ] {
        refuses(&letters(other, extents), 30);
    }
}

/// A label that only A, or only B, has is summed where D lacks it. C may not have it.
#[test]
fn letters_of_a_alone_and_of_b_alone() {
    for which in [0, 1] {
        let mut case = scalars(Tensor::new("i", &[2], &[0], 0, &[5]));
        case.tensor_mut(which).push(b'x', 4, 0);
        gives(&case, &[74, 74]);
        case.tensor_mut(3).push(b'x', 4, 0);
        refuses(&case, 30);
        case.d.push(b'x', 4, 2);
        case.d.words = vec![7; 8];
        gives(&case, &[56; 8]);
    }
}

/// A scalar C for a scalar D: both have no letters.
#[test]
fn no_letters() {
    let case = Case { d: Tensor::scalar(9), ..scalars(Tensor::scalar(5)) };
    gives(&case, &[56]);
    refuses(&Case { c: Some(Tensor::new("i", &[1], &[0], 0, &[5])), ..case.clone() }, 30);
    refuses(&Case { d: Tensor::new("i", &[1], &[0], 0, &[5]), ..case }, 30);
}

/// A call that runs nothing reads nothing of C, and one that is refused leaves all words.
#[test]
fn calls_that_run_nothing() {
    let (case, index) = (matrices(c([0, 1], 0, &[10, 20])), OutputIndex::new(0, 0, 0));
    let r = Request { case, sizes: SIZES[1], done: 0, budget: 0, work: vec![3; 10], index };
    let found = check_run(&r);
    assert_eq!((found.answer, found.words, found.work), (0, vec![100, 200, 300, 400], vec![3; 10]));
    let short = Request { work: vec![3; 9], budget: 4, ..r.clone() };
    assert_eq!((check_run(&short).answer, check_ask(&short)), (11, Ok(0)));
    let above = Request { done: 4, ..r };
    assert_eq!((check_run(&above).answer, check_ask(&above)), (12, Err(12)));
}
