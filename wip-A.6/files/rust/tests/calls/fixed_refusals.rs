//! Every refusal of the calls in fixed point, alone and two together. Each is made under guard: no word and no sum may
//! change, and a refused tile call gives the count back.

use crate::common::case::Tensor;
use crate::common::fixed_call::{check_ask, check_plain, check_run, same_fixed};
use crate::common::fixed_refusing::{
    broken, refuses_plain, refuses_state_question, refuses_tiles, sound_request, ways, Refuses, OF_PLAIN, OF_TILES,
};
use crate::common::fixed_request::{FixedRan, FixedRequest};
use nezgrak::Refusal;

fn alone(numbers: &[u32], refuses: Refuses) {
    for number in numbers {
        let ways = ways(*number);
        assert!(!ways.is_empty(), "no way to break question {number}");
        ways.iter().for_each(|way| refuses(&broken(&[way]), *number));
    }
}

#[test]
fn each_alone_of_the_plain_call() {
    alone(&OF_PLAIN, refuses_plain);
}

#[test]
fn each_alone_of_a_tile_call() {
    alone(&OF_TILES, refuses_tiles);
}

#[test]
fn each_alone_of_a_state_question() {
    alone(&[1, 2, 3, 4, 5, 6, 7, 8, 9, 10, 12], refuses_state_question);
}

/// Where the later question is broken too, the earlier one answers. Gives how many pairs there are.
fn every_pair(numbers: &[u32], refuses: Refuses) -> usize {
    let mut pairs = 0;
    for (place, &first) in numbers.iter().enumerate() {
        for &later in &numbers[place + 1..] {
            pairs += 1;
            let (earlier_ways, later_ways) = (ways(first), ways(later));
            let both = later_ways.iter().flat_map(|later| earlier_ways.iter().map(move |way| [later, way]));
            both.for_each(|both| refuses(&broken(&both), first));
        }
    }
    pairs
}

#[test]
fn every_pair_of_the_plain_call() {
    assert_eq!(every_pair(&OF_PLAIN, refuses_plain), 55);
}

#[test]
fn every_pair_of_a_tile_call() {
    assert_eq!(every_pair(&OF_TILES, refuses_tiles), 105);
}

/// With this question and all later ones broken, this one answers.
#[test]
fn all_later_ones_broken_too() {
    for (numbers, refuses) in [(&OF_PLAIN[..], refuses_plain as Refuses), (&OF_TILES, refuses_tiles)] {
        let mut request = sound_request();
        for number in numbers.iter().rev() {
            ways(*number)[0](&mut request);
            refuses(&request, *number);
        }
    }
}

/// A count one above the total, before all that is asked later.
#[test]
fn number_12_comes_before_33() {
    for breaks in [vec![], ways(33), ways(35)] {
        let mut r = broken(&breaks.iter().collect::<Vec<_>>());
        r.request.done = 5;
        refuses_tiles(&r, 12);
    }
    let mut r = broken(&[&ways(34)[0]]);
    r.request.done = 5;
    refuses_tiles(&r, 12);
}

/// 33 to 35 are asked at every call: with any budget, and whatever is done, up to the last tile and after it.
#[test]
fn asked_at_every_call() {
    for number in [33, 34, 35] {
        let way = &ways(number)[0];
        for done in 0..=4 {
            for budget in [0, 1, 4, u64::MAX] {
                let mut r = broken(&[way]);
                (r.request.done, r.request.budget) = (done, budget);
                same_fixed(&r, &check_run(&r), &FixedRan::refused(&r, number));
            }
        }
    }
}

/// And where there are no tiles.
#[test]
fn asked_where_there_are_no_tiles() {
    for number in [33, 34, 35] {
        for way in ways(number) {
            let mut r = sound_request();
            let case = &mut r.request.case;
            (case.a.extents[0], case.d.extents[0], r.request.done) = (0, 0, 0);
            way(&mut r);
            let found = check_run(&r);
            let is_of_a = number == 35 && r.request.case.b == sound_request().request.case.b;
            assert_eq!(found.ran.answer, if is_of_a { 0 } else { number }, "{r:?}");
        }
    }
}

/// A state question asks none of 33 to 35: neither sums nor shift are its own, and words don't count.
#[test]
fn a_state_question_skips_33_to_35() {
    for number in [33, 34, 35] {
        for way in ways(number) {
            let r = broken(&[&way]);
            assert_eq!(check_ask(&r.request), Ok(0), "{r:?}");
        }
    }
}

/// The plain call has no sums, so that 33 is none of its questions; nor are 10 to 12.
#[test]
fn the_plain_call_skips_10_to_12_and_33() {
    for number in [10, 11, 12, 33] {
        for way in ways(number) {
            let r = broken(&[&way]);
            assert_eq!(check_plain(&r.request.case, r.shift).answer, 0, "{r:?}");
        }
    }
}

/// A C that is named is asked nothing, where the calls with C refuse it.
#[test]
fn c_is_asked_nothing() {
    let mut r = sound_request();
    for c in
        [Tensor::scalar(1), Tensor::new("?", &[7, 7], &[], u32::MAX, &[]), Tensor::new("ij", &[2, 2], &[1, 2], 9, &[])]
    {
        r.request.case.c = Some(c);
        assert_eq!((check_run(&r).ran.answer, check_plain(&r.request.case, r.shift).answer), (0, 0));
        assert_eq!(check_ask(&r.request), Ok(0));
    }
}

/// A question is put to A and to B before the next one is asked.
#[test]
fn order_across_tensors() {
    let mut r = sound_request();
    r.request.case.a.words[0] = 40_000;
    refuses_tiles(&r, 35);
    r.request.case.b.push(b'o', 65_536, 0);
    refuses_tiles(&r, 34);
    refuses_plain(&r, 34);
    r.sums.clear();
    refuses_tiles(&r, 33);
    r.request.work.clear();
    refuses_tiles(&r, 11);
    r.request.case.d.strides[1] = 1;
    refuses_tiles(&r, 9);
    refuses_plain(&r, 9);
}

#[test]
fn what_a_refusal_says() {
    let said = |number: u32| {
        let FixedRequest { request: r, shift, mut sums } = broken(&[&ways(number)[0]]);
        let (mut words, mut work) = (r.case.d.words.clone(), r.work.clone());
        let contraction = crate::common::lent::contraction_of(&r.case);
        let ran = contraction.run_tiles_fixed(&mut words, shift, r.sizes, &mut work, &mut sums, r.done, r.budget);
        ran.map_err(|refusal: Refusal| refusal.to_string()).expect_err("a refusal")
    };
    assert_eq!(said(33), "refused 33: the slice of sums is shorter than D's slice");
    assert_eq!(said(34), "refused 34: the depth size is above 65,536, or the shift is above 15");
    assert_eq!(said(35), "refused 35: a word that A's or B's layout addresses is not from -32,768 to 32,767");
}
