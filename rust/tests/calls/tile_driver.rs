//! The driver over tile calls: what it yields, what it lets be read in between, and what it refuses.

use crate::common::broken::sound_request;
use crate::common::case::Case;
use crate::common::groups::{Cut, Groups};
use crate::common::lent::contraction_of;
use crate::common::make::{accepted_of_both_forms, Kind};
use crate::common::panels::Model;
use crate::common::refusing::{WITHOUT_C, WITH_C};
use crate::common::request::Request;
use crate::common::rng::Rng;
use crate::common::seen::Seen;
use nezgrak::{OutputIndex, Progress, Refusal, State, TileSizes, Tiles};

const KIND: Kind = Kind { labels: 6, extents: &[1, 2, 3, 5, 8], terms: 800, aligned: false };

/// Calls with the driver of a request, which takes the words from its slices and leaves its own in D's.
fn with_tiles<T>(r: &mut Request, use_it: impl FnOnce(Tiles<'_>) -> T) -> Result<T, Refusal> {
    let mut words = r.case.d.words.clone();
    let result = contraction_of(&r.case).tiles(&mut words, r.sizes, &mut r.work).map(use_it);
    r.case.d.words = words;
    result
}

fn seeded(seed: u64) -> Rng {
    println!("seed {seed:#x}");
    Rng::new(seed)
}

fn random_request(rng: &mut Rng) -> Request {
    let case = accepted_of_both_forms(rng, &KIND);
    let sizes =
        TileSizes { rows: rng.pick(&[1, 2, 3, 64]), cols: rng.pick(&[1, 2, 64]), depth: rng.pick(&[1, 2, 5, 128]) };
    let index = OutputIndex::new(0, 0, 0);
    Request { case, sizes, done: 0, budget: 0, work: rng.words(sizes.work_words() + 1), index }
}

/// Nothing is changed by making a driver, though it asks the engine for the total.
#[test]
fn the_total_is_that_of_the_rules() {
    let (mut rng, mut seen) = (seeded(0xd21e_0001), Seen::default());
    for _ in 0..2_000 {
        let mut r = random_request(&mut rng);
        let before = r.clone();
        let found = with_tiles(&mut r, |tiles| (tiles.done(), tiles.total(), tiles.is_complete()));
        let cut = Cut::of(&Groups::of(&before.case), before.sizes);
        assert_eq!(found, Ok((0, cut.total(), cut.total() == 0)), "{before:?}");
        assert!(r.case == before.case && r.work == before.work, "a word was changed: {before:?}");
        note_cut(&mut seen, &cut);
    }
    seen.each_at_least(3, 40);
}

fn note_cut(seen: &mut Seen, cut: &Cut) {
    seen.note("no tiles", cut.total() == 0);
    seen.note("panels with no terms", cut.depth == 0 && cut.total() > 0);
    seen.note("terms", cut.depth > 0 && cut.total() > 0);
}

/// Between two steps, the words of D and the state of every output index are those of the model.
fn follow(tiles: &mut Tiles<'_>, model: &Model, old: &[u32], budget: u64) {
    let expected = tiles.total().min(tiles.done().saturating_add(budget));
    let complete = expected == tiles.total();
    assert_eq!(tiles.step(budget), Ok(Progress { done: expected, complete }));
    assert_eq!((tiles.done(), tiles.is_complete()), (expected, complete));
    assert_eq!(tiles.words(), model.words(old, 0, expected));
    for index in model.indices() {
        let state = [State::Old, State::Part, State::Final][model.state(expected, index) as usize];
        assert_eq!(tiles.state(index), Ok(state));
    }
    let outside = OutputIndex::new(0, 0, model.cut.column);
    assert_eq!(tiles.state(outside).map_err(Refusal::number), Err(13));
}

#[test]
fn steps() {
    let (mut rng, mut seen) = (seeded(0xd21e_0002), Seen::default());
    for _ in 0..600 {
        let mut r = random_request(&mut rng);
        let (model, old) = (Model::of(&r.case, r.sizes), r.case.d.words.clone());
        note_cut(&mut seen, &model.cut);
        let budgets: Vec<u64> = (0..4).map(|_| rng.below(model.cut.total() as usize + 2) as u64 / 3).collect();
        with_tiles(&mut r, |mut tiles| {
            budgets.iter().chain(&[u64::MAX, 1]).for_each(|budget| follow(&mut tiles, &model, &old, *budget));
        })
        .expect("an accepted contraction");
    }
    seen.each_at_least(3, 10);
}

/// What is left after one tile, by a budget; and D is then that of the plain call. Where there are no tiles the
/// iterator ends at once.
#[test]
fn as_an_iterator() {
    let (mut rng, mut seen) = (seeded(0xd21e_0003), Seen::default());
    for _ in 0..600 {
        let mut r = random_request(&mut rng);
        let (plain, cut) = (plain(&r.case), Cut::of(&Groups::of(&r.case), r.sizes));
        note_cut(&mut seen, &cut);
        let total = cut.total();
        let budget = 1 + rng.below(5) as u64;
        let counts = with_tiles(&mut r, |mut tiles| {
            let first = tiles.next();
            let rest: Result<Vec<Progress>, Refusal> = tiles.with_budget(budget).take(total as usize).collect();
            (first, rest)
        });
        let progress = |done| Progress { done, complete: done == total };
        let first = (total > 0).then(|| Ok(progress(1)));
        let steps = (1..total).step_by(budget as usize).map(|done| progress(total.min(done + budget))).collect();
        assert_eq!(counts, Ok((first, Ok(steps))));
        assert_eq!(r.case.d.words, plain);
    }
    seen.each_at_least(3, 10);
}

fn plain(case: &Case) -> Vec<u32> {
    let mut words = case.d.words.clone();
    assert_eq!(contraction_of(case).contract(&mut words), Ok(()));
    words
}

/// A budget of 0 ends the iterator, so that no loop over it can hang; it can be given another.
#[test]
fn a_budget_of_0() {
    let found = with_tiles(&mut sound_request(), |tiles| {
        let mut none = tiles.with_budget(0);
        let ended = none.next().is_none();
        let stood = none.step(0);
        let mut all = none.with_budget(u64::MAX);
        (ended, stood, all.next(), all.next())
    });
    let (stood, all) = (Progress { done: 0, complete: false }, Progress { done: 4, complete: true });
    assert_eq!(found, Ok((true, Ok(stood), Some(Ok(all)), None)));
}

/// Questions 1 to 11, and 30, are asked when a driver is made.
#[test]
fn refusals() {
    (1..=11).for_each(|number| WITHOUT_C.alone(number, refuses_driver));
    (1..=11).chain([30]).for_each(|number| WITH_C.alone(number, refuses_driver));
}

fn refuses_driver(r: &Request, number: u32) {
    let mut tried = r.clone();
    let found = with_tiles(&mut tried, |_| ());
    assert_eq!(found.map_err(Refusal::number), Err(number), "{r:?}");
    assert!(tried.case == r.case && tried.work == r.work, "a word was changed: {r:?}");
}

#[test]
fn words_of_work() {
    let sizes = TileSizes { rows: 3, cols: 5, depth: 7 };
    assert_eq!(sizes.work_words(), 3 * 7 + 7 * 5);
    let refused = TileSizes { rows: u32::MAX, cols: u32::MAX, depth: u32::MAX };
    assert!(refused.work_words() > 1 << 60);
}
