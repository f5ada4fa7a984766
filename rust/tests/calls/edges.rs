//! The small cases that the rules list. Those that are proved there are also theorems of the definitions; here the archive
//! runs them, by the plain call and by tile calls.

use crate::common::both::{gives, refuses};
use crate::common::case::{Case, Tensor};
use crate::common::list::List;
use nezgrak::TileSizes;

/// Alpha 1 and beta 0.
fn plain(a: Tensor, b: Tensor, d: Tensor) -> Case {
    Case { a, b, c: None, d, alpha: 1, beta: 0 }
}

/// A D of two labels over this many words, to be set to A's and B's only word, 6.
fn six(extents: [u32; 2], strides: [i32; 2], length: usize) -> Case {
    plain(Tensor::scalar(2), Tensor::scalar(3), Tensor::new("ij", &extents, &strides, 0, &vec![9; length]))
}

#[test]
fn no_letters() {
    let case = plain(Tensor::scalar(3), Tensor::scalar(5), Tensor::scalar(7));
    gives(&Case { alpha: 2, beta: 1, ..case }, &[37]);
}

#[test]
fn words_wrap() {
    gives(&plain(Tensor::scalar(u32::MAX), Tensor::scalar(u32::MAX), Tensor::scalar(0)), &[1]);
}

#[test]
fn a_label_of_a_alone_is_summed() {
    let a = Tensor::new("i", &[3], &[1], 0, &[1, 2, 3]);
    gives(&plain(a.clone(), Tensor::scalar(10), Tensor::scalar(0)), &[60]);
    gives(&plain(Tensor::scalar(10), a, Tensor::scalar(0)), &[60]);
}

#[test]
fn a_label_of_d_alone_is_broadcast() {
    gives(&plain(Tensor::scalar(2), Tensor::scalar(3), Tensor::new("i", &[2], &[1], 0, &[0, 0])), &[6, 6]);
}

#[test]
fn a_repeated_letter_of_a_is_its_diagonal() {
    let a = Tensor::new("ii", &[2, 2], &[1, 2], 0, &[1, 2, 3, 4]);
    gives(&plain(a, Tensor::scalar(1), Tensor::scalar(0)), &[5]);
}

#[test]
fn a_label_of_all_three_is_a_batch() {
    let i = |words| Tensor::new("i", &[2], &[1], 0, words);
    gives(&plain(i(&[2, 3]), i(&[5, 7]), i(&[0, 0])), &[10, 21]);
}

#[test]
fn a_negative_stride_counts_down_from_the_base() {
    let a = Tensor::new("i", &[3], &[-1], 2, &[1, 2, 3]);
    let b = Tensor::new("i", &[3], &[1], 0, &[1, 0, 0]);
    gives(&plain(a, b, Tensor::scalar(0)), &[3]);
}

#[test]
fn strides_of_d_have_to_exceed_what_the_smaller_ones_reach() {
    refuses(&six([3, 2], [2, 3], 8), 9); // though no words meet
    gives(&six([3, 2], [1, 3], 6), &[6; 6]);
}

#[test]
fn stride_0_in_d() {
    refuses(&six([3, 2], [1, 0], 3), 9);
    gives(&six([3, 1], [1, 0], 3), &[6; 3]);
}

/// With extent 0 a sum has no values, and a D no entries.
#[test]
fn extent_0_and_extent_65_537() {
    for (which, word) in [(0, 0), (1, 0), (2, 9)] {
        let mut case = plain(Tensor::scalar(2), Tensor::scalar(3), Tensor::scalar(9));
        case.tensor_mut(which).push(b'i', 0, 0);
        gives(&case, &[word]);
        case.tensor_mut(which).extents[0] = 65_537;
        refuses(&case, 4);
    }
}

/// A and B have one word; question 8 is failed by D, so that a passed 7 shows without the sum of 2^30 terms.
#[test]
fn product_of_extents() {
    let outside = |extents: [u32; 2]| {
        let a = Tensor::new("ij", &extents, &[0, 0], 0, &[2]);
        plain(a, Tensor::scalar(3), Tensor::new("", &[], &[], 1, &[9]))
    };
    refuses(&outside([32_768, 32_768]), 8);
    refuses(&outside([32_768, 32_769]), 7);
}

#[test]
fn a_repeated_letter_of_d_is_its_diagonal() {
    let d = Tensor::new("ii", &[2, 2], &[1, 2], 0, &[50, 60, 70, 80]);
    gives(&plain(Tensor::scalar(2), Tensor::scalar(3), d), &[6, 60, 70, 6]);
}

/// Document 01's example for the job program.
fn example() -> Case {
    let a = Tensor::new("ik", &[2, 3], &[1, 2], 0, &[1, 2, 3, 4, 5, 6]);
    let b = Tensor::new("kj", &[3, 2], &[1, 3], 0, &[1, 0, 2, 0, 1, 1]);
    let d = Tensor::new("ij", &[2, 2], &[1, 2], 0, &[100, 200, 300, 400]);
    Case { a, b, c: None, d, alpha: 1, beta: 2 }
}

#[test]
fn matrix_product() {
    gives(&example(), &[211, 414, 608, 810]);
}

/// With its tile sizes and a budget. Old is 0, part 1, final 2.
fn example_after(budget: u64, words: [u32; 4], states: [u32; 4]) {
    let mut list = List::new(&example(), TileSizes { rows: 1, cols: 1, depth: 2 }, 0);
    assert_eq!((list.left(), list.ask_all()), (8, vec![0; 4]));
    assert_eq!(list.run(budget, vec![9; 4]), 0);
    assert_eq!((list.done(), list.ask_all()), (budget, states.to_vec()));
    assert_eq!(list.words(), words);
}

#[test]
fn three_tiles_of_the_example() {
    example_after(3, [211, 402, 300, 400], [2, 1, 0, 0]);
}

#[test]
fn eight_tiles_of_the_example() {
    example_after(8, [211, 414, 608, 810], [2; 4]);
}
