//! Every refusal of a tile call and of a state question, alone and two together. Each is made under guard: no lent word
//! may change, a refused tile call gives the count back, and a refused question leaves the state as it was.

use crate::common::broken::{sound_request, ways};
use crate::common::refusing::{refuses_state, refuses_tiles, WITHOUT_C};
use crate::common::request::Request;
use crate::common::tile_call::{check_ask, check_run};

const OF_TILES: [u32; 12] = [1, 2, 3, 4, 5, 6, 7, 8, 9, 10, 11, 12];
const OF_STATE: [u32; 12] = [1, 2, 3, 4, 5, 6, 7, 8, 9, 10, 12, 13];

#[test]
fn the_sound_one_is_accepted_and_writes_every_word() {
    let request = sound_request();
    let ran = check_run(&request);
    assert_eq!((ran.answer, ran.done, ran.complete), (0, 3, 0));
    assert!(ran.words.iter().zip(&request.case.d.words).all(|(after, before)| after != before));
    assert!(ran.work.iter().zip(&request.work).all(|(after, before)| after != before));
    assert_eq!(check_ask(&request), Ok(0));
    assert_eq!(check_ask(&Request { done: 3, ..request }), Ok(1));
}

fn alone(number: u32) {
    if OF_TILES.contains(&number) {
        WITHOUT_C.alone(number, refuses_tiles);
    }
    if OF_STATE.contains(&number) {
        WITHOUT_C.alone(number, refuses_state);
    }
}

#[test]
fn refusals_1_to_9_alone() {
    (1..=9).for_each(alone);
}

#[test]
fn refusal_10_alone() {
    alone(10);
}

#[test]
fn refusal_11_alone() {
    alone(11);
}

#[test]
fn refusal_12_alone() {
    alone(12);
}

#[test]
fn refusal_13_alone() {
    alone(13);
}

#[test]
fn every_pair_of_a_tile_call() {
    assert_eq!(WITHOUT_C.every_pair(&OF_TILES, refuses_tiles), 66);
}

#[test]
fn every_pair_of_a_state_question() {
    assert_eq!(WITHOUT_C.every_pair(&OF_STATE, refuses_state), 66);
}

#[test]
fn all_later_ones_of_a_tile_call_broken_too() {
    WITHOUT_C.all_later_ones_broken_too(&OF_TILES, refuses_tiles);
}

#[test]
fn all_later_ones_of_a_state_question_broken_too() {
    WITHOUT_C.all_later_ones_broken_too(&OF_STATE, refuses_state);
}

/// What only the other call is asked does not count: a state question has no work, a tile call no index.
#[test]
fn each_call_is_asked_its_own_questions() {
    for way in ways(11) {
        assert_eq!(check_ask(&WITHOUT_C.broken(&[&way])), Ok(0));
    }
    for way in ways(13) {
        assert_eq!(check_run(&WITHOUT_C.broken(&[&way])).answer, 0);
    }
}
