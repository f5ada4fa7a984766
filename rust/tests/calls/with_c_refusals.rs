//! Every refusal of a contraction that names C, alone and two together, by the plain call, a tile call and a state
//! question. Each is made under guard: no lent word may change.

use crate::common::both;
use crate::common::broken::{edits, sound_with_c, Break};
use crate::common::call::check;
use crate::common::case::{Case, Tensor};
use crate::common::refusing::{refuses_plain, refuses_state, refuses_tiles, Refuses, WITHOUT_C, WITH_C};
use crate::common::tile_call::{check_ask, check_run};

/// In the order in which they are asked.
const OF_PLAIN: [u32; 10] = [1, 2, 3, 4, 5, 6, 30, 7, 8, 9];
const OF_TILES: [u32; 13] = [1, 2, 3, 4, 5, 6, 30, 7, 8, 9, 10, 11, 12];
const OF_STATE: [u32; 13] = [1, 2, 3, 4, 5, 6, 30, 7, 8, 9, 10, 12, 13];

/// The calls with their questions.
const CALLS: [(&[u32], Refuses); 3] =
    [(&OF_PLAIN, refuses_plain), (&OF_TILES, refuses_tiles), (&OF_STATE, refuses_state)];

/// The sound contraction with an edit of C, or of another tensor.
fn edited(edit: impl FnOnce(&mut Case)) -> Case {
    let mut case = sound_with_c();
    edit(&mut case);
    case
}

#[test]
fn the_sound_one_is_accepted_and_writes_every_word() {
    let request = (WITH_C.sound)();
    let (plain, tiled) = (check(&request.case), check_run(&request));
    assert_eq!((plain.answer, tiled.answer, check_ask(&request)), (0, 0, Ok(0)));
    for words in [plain.words, tiled.words] {
        assert!(words.iter().zip(&request.case.d.words).all(|(after, before)| after != before));
    }
}

#[test]
fn each_alone() {
    for (numbers, refuses) in CALLS {
        numbers.iter().for_each(|number| WITH_C.alone(*number, refuses));
    }
}

/// C has its own ways to fail 1 to 6 and 8, and there are ways to fail 30.
#[test]
fn the_ways_of_c() {
    for number in OF_PLAIN {
        let of_c = (WITH_C.ways)(number).len() - if number == 30 { 0 } else { (WITHOUT_C.ways)(number).len() };
        let expected = match number {
            30 => 8,
            7 | 9 => 0,
            _ => edits(number).len(),
        };
        assert_eq!(of_c, expected, "question {number}");
    }
}

#[test]
fn every_pair_of_the_plain_call() {
    assert_eq!(WITH_C.every_pair(&OF_PLAIN, refuses_plain), 45);
}

#[test]
fn every_pair_of_a_tile_call() {
    assert_eq!(WITH_C.every_pair(&OF_TILES, refuses_tiles), 78);
}

#[test]
fn every_pair_of_a_state_question() {
    assert_eq!(WITH_C.every_pair(&OF_STATE, refuses_state), 78);
}

#[test]
fn all_later_ones_broken_too() {
    CALLS.into_iter().for_each(|(numbers, refuses)| WITH_C.all_later_ones_broken_too(numbers, refuses));
}

/// A question is put to C with the other tensors, before the next one is asked.
#[test]
fn order_across_tensors() {
    let mut case = edited(|case| case.d.words.clear());
    both::refuses(&case, 8);
    case.tensor_mut(3).letters[0] = b'i';
    both::refuses(&case, 30);
    case.b.extents[0] = 4;
    both::refuses(&case, 6);
    case.tensor_mut(3).strides[0] = 16_777_217;
    both::refuses(&case, 5);
    case.a.extents[0] = 65_537;
    both::refuses(&case, 4);
    case.tensor_mut(3).letters[1] = b'1';
    both::refuses(&case, 3);
    case.d.strides.pop();
    both::refuses(&case, 2);
    (0..7).for_each(|_| case.tensor_mut(3).push(b'i', 1, 1));
    both::refuses(&case, 1);
}

/// 30 after 6, and before 7 and 8, of whichever tensor.
#[test]
fn where_30_is_asked() {
    let lacks_i = |case: &mut Case| case.tensor_mut(3).letters[1] = b'j';
    both::refuses(&edited(lacks_i), 30);
    for which in 0..4 {
        for (number, first) in [(6, 6), (7, 30), (8, 30)] {
            for edit in edits(number) {
                let case = edited(|case| {
                    lacks_i(case);
                    edit(case.tensor_mut(which));
                });
                both::refuses(&case, first);
            }
        }
    }
}

/// A letter that C lacks and D has, with an extent that would be too large together with the others: 30 and not 7.
#[test]
fn labels_that_only_one_of_c_and_d_has() {
    for which in [2, 3] {
        for edit in edits(7) {
            both::refuses(&edited(|case| edit(case.tensor_mut(which))), 30);
        }
    }
    for edit in edits(7) {
        both::refuses(&edited(|case| [2, 3].into_iter().for_each(|which| edit(case.tensor_mut(which)))), 7);
    }
}

/// What refuses D by 9 is no fault of C.
#[test]
fn question_9_is_not_asked_of_c() {
    for edit in edits(9) {
        both::refuses(&edited(|case| edit(&mut case.d)), 9);
        let case = edited(|case| edit(case.tensor_mut(3)));
        assert_eq!(check(&case).answer, 0, "{case:?}");
    }
}

/// Where C is not named, nothing is asked of it: the same D is accepted by one form and refused by the other.
#[test]
fn the_form_without_c_asks_nothing_of_it() {
    for way in (WITH_C.ways)(30) {
        let case = WITH_C.broken(&[&way]).case;
        both::refuses(&case, 30);
        let without_c = Case { c: None, ..case };
        assert!(check(&without_c).answer != 30, "{without_c:?}");
    }
    let c = Some(Tensor::new("?", &[7, 7], &[], u32::MAX, &[]));
    both::refuses(&Case { c, ..sound_with_c() }, 2);
    assert_eq!(check(&Case { c: None, ..sound_with_c() }).answer, 0);
}

/// Where C fails, an answer that is set stays as it was: the count as given, and the state untouched.
#[test]
fn the_answers_of_a_refused_call() {
    let way: Break = Box::new(|r| r.case.tensor_mut(3).words.clear());
    let request = WITH_C.broken(&[&way]);
    let ran = check_run(&request);
    assert_eq!((ran.answer, ran.done, ran.complete), (8, 1, 0));
    assert_eq!(check_ask(&request), Err(8));
}
