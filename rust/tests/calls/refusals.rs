//! Every refusal alone and every two together. Each call is made under guard, and no lent word may change.

use crate::common::broken::{edits, sound, tensors_of};
use crate::common::call::{check, refuses};
use crate::common::case::Case;

/// The sound contraction with one question broken for one tensor, in one way.
fn broken(mut case: Case, number: u32, which: usize, edit: usize) -> Case {
    edits(number)[edit](case.tensor_mut(which));
    case
}

/// Every way to break a question: which tensor, and by which edit.
fn ways(number: u32) -> impl Iterator<Item = (usize, usize)> {
    tensors_of(number).iter().flat_map(move |which| (0..edits(number).len()).map(move |edit| (*which, edit)))
}

#[test]
fn the_sound_one_is_accepted_and_writes_every_word() {
    let case = sound();
    let found = check(&case);
    assert_eq!(found.answer, 0);
    assert!(found.words.iter().zip(&case.d.words).all(|(after, before)| after != before));
}

fn alone(number: u32) {
    for (which, edit) in ways(number) {
        refuses(&broken(sound(), number, which, edit), number);
    }
}

#[test]
fn refusal_1_alone() {
    alone(1);
}

#[test]
fn refusal_2_alone() {
    alone(2);
}

#[test]
fn refusal_3_alone() {
    alone(3);
}

#[test]
fn refusal_4_alone() {
    alone(4);
}

#[test]
fn refusal_5_alone() {
    alone(5);
}

#[test]
fn refusal_6_alone() {
    alone(6);
}

#[test]
fn refusal_7_alone() {
    alone(7);
}

#[test]
fn refusal_8_alone() {
    alone(8);
}

#[test]
fn refusal_9_alone() {
    alone(9);
}

/// The earlier question answers, whichever tensors fail the two.
#[test]
fn every_pair() {
    let mut pairs = 0;
    for first in 1..=9 {
        for later in first + 1..=9 {
            pairs += 1;
            for (later_which, later_edit) in ways(later) {
                for (which, edit) in ways(first) {
                    let case = broken(sound(), later, later_which, later_edit);
                    refuses(&broken(case, first, which, edit), first);
                }
            }
        }
    }
    assert_eq!(pairs, 36);
}

/// With this question and all later ones broken, for one tensor, this one answers.
#[test]
fn all_later_ones_broken_too() {
    for which in 0..3 {
        let mut case = sound();
        for number in (1..=9).rev() {
            let which = if number == 9 { 2 } else { which };
            case = broken(case, number, which, 0);
            refuses(&case, number);
        }
    }
}

/// A question is put to every tensor before the next one is asked: B's letter comes before A's extent.
#[test]
fn order_across_tensors() {
    let mut case = sound();
    case.a.extents[0] = 65_537;
    refuses(&case, 4);
    case.b.letters[0] = b'1';
    refuses(&case, 3);
    case.d.strides.pop();
    refuses(&case, 2);
}
