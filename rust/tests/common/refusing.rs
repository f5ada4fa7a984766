//! Refusals of requests that are sound but for one question or two, in the form without C and in the form with it.

use super::broken::{sound_request, sound_request_with_c, ways, ways_with_c, Break};
use super::call;
use super::request::{Ran, Request};
use super::tile_call::{check_ask, check_run, same};

/// A sound request, and the ways to break each of its questions.
pub struct Form {
    pub sound: fn() -> Request,
    pub ways: fn(u32) -> Vec<Break>,
}

pub const WITHOUT_C: Form = Form { sound: sound_request, ways };
pub const WITH_C: Form = Form { sound: sound_request_with_c, ways: ways_with_c };

/// A call that has to refuse a request by a number.
pub type Refuses = fn(&Request, u32);

pub fn refuses_plain(r: &Request, number: u32) {
    call::refuses(&r.case, number);
}

pub fn refuses_tiles(r: &Request, number: u32) {
    same(r, &check_run(r), &Ran::refused(r, number));
}

pub fn refuses_state(r: &Request, number: u32) {
    assert_eq!(check_ask(r), Err(number), "the state by {r:?}");
}

impl Form {
    pub fn broken(&self, breaks: &[&Break]) -> Request {
        let mut request = (self.sound)();
        breaks.iter().for_each(|way| way(&mut request));
        request
    }

    /// The question of this number, broken in each way, refuses.
    pub fn alone(&self, number: u32, refuses: Refuses) {
        let ways = (self.ways)(number);
        assert!(!ways.is_empty(), "no way to break question {number}");
        ways.iter().for_each(|way| refuses(&self.broken(&[way]), number));
    }

    /// Where the later question is broken too, the earlier one answers, whichever tensors fail the two. Gives how many
    /// pairs there are.
    pub fn every_pair(&self, numbers: &[u32], refuses: Refuses) -> usize {
        let mut pairs = 0;
        for (place, &first) in numbers.iter().enumerate() {
            for &later in &numbers[place + 1..] {
                pairs += 1;
                let (earlier_ways, later_ways) = ((self.ways)(first), (self.ways)(later));
                let both = later_ways.iter().flat_map(|later| earlier_ways.iter().map(move |way| [later, way]));
                both.for_each(|both| refuses(&self.broken(&both), first));
            }
        }
        pairs
    }

    /// With this question and all later ones broken, this one answers.
    pub fn all_later_ones_broken_too(&self, numbers: &[u32], refuses: Refuses) {
        let mut request = (self.sound)();
        for number in numbers.iter().rev() {
            (self.ways)(*number)[0](&mut request);
            refuses(&request, *number);
        }
    }
}
