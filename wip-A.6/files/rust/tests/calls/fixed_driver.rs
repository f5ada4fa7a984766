//! The driver over tile calls in fixed point: what it yields, what it lets be read in between, and what it refuses.

use crate::common::fixed_make::{accepted_fixed, shift, sums};
use crate::common::fixed_panels::{Before, FixedModel};
use crate::common::fixed_refusing::{broken, sound_request, ways, OF_TILES};
use crate::common::fixed_request::FixedRequest;
use crate::common::lent::contraction_of;
use crate::common::make::Kind;
use crate::common::request::Request;
use crate::common::rng::Rng;
use nezgrak::{OutputIndex, Progress, Refusal, State, TileSizes, Tiles};

const KIND: Kind = Kind { labels: 6, extents: &[1, 2, 3, 5, 8], terms: 800, aligned: false };

/// Calls with the driver of a request, which leaves its words, work and sums in the request's.
fn with_tiles<T>(r: &mut FixedRequest, use_it: impl FnOnce(Tiles<'_>) -> T) -> Result<T, Refusal> {
    let mut words = r.request.case.d.words.clone();
    let Request { case, sizes, work, .. } = &mut r.request;
    let driver = contraction_of(case).tiles_fixed(&mut words, r.shift, *sizes, work, &mut r.sums);
    let result = driver.map(use_it);
    r.request.case.d.words = words;
    result
}

fn random_request(rng: &mut Rng) -> FixedRequest {
    let case = accepted_fixed(rng, &KIND);
    let sizes =
        TileSizes { rows: rng.pick(&[1, 2, 3, 64]), cols: rng.pick(&[1, 2, 64]), depth: rng.pick(&[1, 2, 5, 128]) };
    let (sums, work) = (sums(rng, case.d.words.len()), rng.words(sizes.work_words() + 1));
    let request = Request { case, sizes, done: 0, budget: 0, work, index: OutputIndex::new(0, 0, 0) };
    FixedRequest { request, shift: shift(rng), sums }
}

/// Nothing is changed by making a driver, though it asks the engine for the total.
#[test]
fn the_total_is_that_of_the_rules() {
    println!("seed 0xd21f0001");
    let mut rng = Rng::new(0xd21f_0001);
    for _ in 0..600 {
        let mut r = random_request(&mut rng);
        let (before, model) = (r.clone(), FixedModel::of(&r.request.case, r.shift, r.request.sizes).model);
        let found = with_tiles(&mut r, |tiles| (tiles.done(), tiles.total(), tiles.sums().len()));
        assert_eq!(found, Ok((0, model.cut.total(), before.sums.len())), "{before:?}");
        let unchanged = r.request.case == before.request.case && r.request.work == before.request.work;
        assert!(unchanged && r.sums == before.sums, "something was changed: {before:?}");
    }
}

/// Between two steps, the words, the sums and the state of every output index are those of the model.
fn follow(tiles: &mut Tiles<'_>, fixed: &FixedModel, before: &Before, budget: u64) {
    let expected = tiles.total().min(tiles.done().saturating_add(budget));
    let complete = expected == tiles.total();
    assert_eq!(tiles.step(budget), Ok(Progress { done: expected, complete }));
    assert_eq!((tiles.done(), tiles.is_complete()), (expected, complete));
    let (words, sums) = fixed.after(before, expected);
    assert_eq!((tiles.words(), tiles.sums()), (&words[..], &sums[..]));
    for index in fixed.model.indices() {
        let state = [State::Old, State::Part, State::Final][fixed.model.state(expected, index) as usize];
        assert_eq!(tiles.state(index), Ok(state));
    }
    let outside = OutputIndex::new(0, 0, fixed.model.cut.column);
    assert_eq!(tiles.state(outside).map_err(Refusal::number), Err(13));
}

#[test]
fn steps() {
    println!("seed 0xd21f0002");
    let mut rng = Rng::new(0xd21f_0002);
    for _ in 0..400 {
        let mut r = random_request(&mut rng);
        let (fixed, before) = (FixedModel::of(&r.request.case, r.shift, r.request.sizes), Before::of(&r));
        let budgets: Vec<u64> = (0..4).map(|_| rng.below(fixed.model.cut.total() as usize + 2) as u64 / 3).collect();
        with_tiles(&mut r, |mut tiles| {
            budgets.iter().chain(&[u64::MAX, 1]).for_each(|budget| follow(&mut tiles, &fixed, &before, *budget));
        })
        .expect("an accepted contraction");
    }
}

/// As an iterator, by a budget; and D is then that of the plain call.
#[test]
fn as_an_iterator() {
    println!("seed 0xd21f0003");
    let mut rng = Rng::new(0xd21f_0003);
    for _ in 0..400 {
        let mut r = random_request(&mut rng);
        let mut plain = r.request.case.d.words.clone();
        assert_eq!(contraction_of(&r.request.case).contract_fixed(&mut plain, r.shift), Ok(()));
        let budget = 1 + rng.below(5) as u64;
        let counts = with_tiles(&mut r, |tiles| {
            let total = tiles.total();
            let steps: Result<Vec<Progress>, Refusal> = tiles.with_budget(budget).collect();
            (total, steps)
        });
        let (total, steps) = counts.expect("an accepted contraction");
        let done = |progress: &Progress| progress.done;
        let expected: Vec<u64> = (0..total).step_by(budget as usize).map(|done| total.min(done + budget)).collect();
        assert_eq!(steps.expect("no refusal").iter().map(done).collect::<Vec<_>>(), expected);
        assert_eq!(r.request.case.d.words, plain);
    }
}

/// Questions 1 to 11 and 33 to 35 are asked when a driver is made, and nothing is changed then.
#[test]
fn refusals() {
    for number in OF_TILES.into_iter().filter(|number| *number != 12) {
        for way in ways(number) {
            let mut r = broken(&[&way]);
            let before = r.clone();
            assert_eq!(with_tiles(&mut r, |_| ()).map_err(Refusal::number), Err(number), "{before:?}");
            let unchanged = r.request.case == before.request.case && r.request.work == before.request.work;
            assert!(unchanged && r.sums == before.sums, "something was changed: {before:?}");
        }
    }
}

/// A driver that wraps has no sums.
#[test]
fn no_sums_where_words_wrap() {
    let mut r = sound_request().request;
    let mut words = r.case.d.words.clone();
    let tiles = contraction_of(&r.case).tiles(&mut words, r.sizes, &mut r.work).expect("an accepted contraction");
    assert!(tiles.sums().is_empty());
}
