//! Random lists of tile calls and state questions in fixed point against the model, refused calls among them: every answer,
//! every word and every sum after each call.

use crate::common::case::{same_words, Case};
use crate::common::fixed_call::{check_ask, check_run, run_plain};
use crate::common::fixed_list::FixedList;
use crate::common::fixed_make::{accepted_fixed, shift, spoil_fixed, sums, OUTSIDE};
use crate::common::fixed_questions::addressed;
use crate::common::fixed_request::FixedRequest;
use crate::common::groups::{Cut, Groups};
use crate::common::make::{spoil, Kind};
use crate::common::request::{work_needed, Request};
use crate::common::rng::Rng;
use crate::common::seen::Seen;
use nezgrak::{OutputIndex, TileSizes};

const TURNS: usize = 1_500;

const KINDS: [(u64, Kind); 4] = [
    (0xf11e_0001, Kind { labels: 4, extents: &[1, 2, 3, 5, 8, 13], terms: 1_500, aligned: false }),
    (0xf11e_0002, Kind { labels: 9, extents: &[1, 2, 2, 3, 3, 4, 5], terms: 1_000, aligned: false }),
    (0xf11e_0003, Kind { labels: 9, extents: &[1, 2, 2, 3, 3, 4], terms: 1_000, aligned: true }),
    (0xf11e_0004, Kind { labels: 5, extents: &[1, 3, 9, 30, 130], terms: 6_000, aligned: false }),
];

/// Mostly small, so that there are several tiles, and up to the limits.
fn sizes(rng: &mut Rng) -> TileSizes {
    let mut size = |limit| {
        let any = 1 + rng.below(limit as usize) as u32;
        rng.pick(&[1, 1, 2, 2, 3, 4, 5, 8, any, limit])
    };
    TileSizes { rows: size(64), cols: size(64), depth: size(128) }
}

fn budget(rng: &mut Rng, left: u64) -> u64 {
    let some = rng.below(left as usize + 1) as u64;
    rng.pick(&[0, 1, 1, 1, 2, some / 8, some / 4, some, left.saturating_sub(1), left, left + 1, u64::MAX])
}

fn index(rng: &mut Rng, cut: &Cut) -> OutputIndex {
    let mut count = |size: u64| {
        let any = rng.below(size.max(1) as usize) as u64;
        rng.pick(&[0, any, any, any, any, size.saturating_sub(1), size])
    };
    OutputIndex::new(count(cut.batch), count(cut.row), count(cut.column))
}

#[test]
fn random_lists() {
    let mut seen = Seen::default();
    for (seed, kind) in KINDS {
        println!("seed {seed:#x}: {TURNS} lists of calls, contractions of up to {} labels", kind.labels);
        let mut rng = Rng::new(seed);
        for _ in 0..TURNS {
            let case = accepted_fixed(&mut rng, &kind);
            let mut list = list_of(&mut rng, &case);
            note_list(&mut seen, &list);
            (0..1 + rng.below(10)).for_each(|_| turn(&mut rng, &mut list, &case, &mut seen));
        }
    }
    seen.each_at_least(21, 50);
}

/// Mostly from the first tile on, with any sums.
fn list_of(rng: &mut Rng, case: &Case) -> FixedList {
    let sizes = sizes(rng);
    let total = Cut::of(&Groups::of(case), sizes).total();
    let any = rng.below(total as usize + 1) as u64;
    let start = rng.pick(&[0, 0, 0, any, any, total]);
    FixedList::new(case, shift(rng), sizes, start, sums(rng, case.d.words.len()))
}

fn note_list(seen: &mut Seen, list: &FixedList) {
    let cut = &list.fixed.model.cut;
    seen.note("list that begins after some tiles", list.done() > 0);
    seen.note("several panels", cut.panels > 1);
    seen.note("several row blocks", cut.row_blocks > 1);
    seen.note("several column blocks", cut.column_blocks > 1);
    seen.note("several batch counts", cut.batch > 1);
    seen.note("panel with no terms", cut.depth == 0 && cut.total() > 0);
    seen.note("no tiles", cut.total() == 0);
    seen.note("more sums than words", list.sums().len() > list.words().len());
}

/// A tile call, at times one that is refused before it, then state questions.
fn turn(rng: &mut Rng, list: &mut FixedList, case: &Case, seen: &mut Seen) {
    if rng.once_in(3) {
        let number = refused(rng, list, case);
        [11, 33, 34, 35].into_iter().for_each(|of| seen.note(&format!("call refused by {of}"), number == of));
    }
    let (before, left, words) = (list.done(), list.left(), list.words().to_vec());
    let (budget, more) = (budget(rng, left), rng.pick(&[0, 0, 1, 70]));
    let work = rng.words(list.work_needed() + more);
    list.run(budget, work);
    seen.note("budget 0", budget == 0);
    seen.note("budget 2^64 - 1", budget == u64::MAX);
    seen.note("call that ran the last tile", list.left() == 0 && left > 0);
    seen.note("call after the last tile", left == 0 && before > 0);
    seen.note("call that ran tiles and changed no word", list.done() > before && list.words() == words);
    for _ in 0..3 {
        let state = list.ask(index(rng, &list.fixed.model.cut));
        [Ok(0), Ok(1), Ok(2), Err(13)].into_iter().for_each(|of| seen.note(&format!("state {of:?}"), state == of));
    }
}

/// A call that differs from those of the list in what one question asks. It is refused, and the list goes on.
fn refused(rng: &mut Rng, list: &mut FixedList, case: &Case) -> u32 {
    let (budget, needed) = (budget(rng, list.left()), list.work_needed());
    let (kind, place, outside) = (rng.below(4), rng.next(), rng.pick(&OUTSIDE) as u32);
    let which = rng.below(2);
    let entries: Vec<usize> = (0..).zip(addressed([&case.a, &case.b][which])).filter(|e| e.1).map(|e| e.0).collect();
    let work = rng.words(needed);
    list.refused(budget, work, |r| match kind {
        0 if !r.request.case.d.words.is_empty() => r.sums.truncate(place as usize % r.request.case.d.words.len()),
        1 if !entries.is_empty() => {
            let place = entries[place as usize % entries.len()];
            r.request.case.tensor_mut(which).words[place] = outside;
        }
        2 => r.request.work.truncate(needed - 1),
        _ => r.shift = 16 + place as u32 % 100,
    })
}

/// From the first tile to the last, whatever the budgets, D becomes what the plain call leaves.
#[test]
fn the_last_tile_leaves_what_the_plain_call_leaves() {
    for (seed, kind) in KINDS {
        println!("seed {seed:#x}: {} contractions", TURNS / 5);
        let mut rng = Rng::new(!seed);
        for _ in 0..TURNS / 5 {
            let (case, shift) = (accepted_fixed(&mut rng, &kind), shift(&mut rng));
            let sums = sums(&mut rng, case.d.words.len());
            let mut list = FixedList::new(&case, shift, sizes(&mut rng), 0, sums);
            let share = list.left() / (1 + rng.below(6) as u64);
            list.step(share.max(1), &mut rng);
            while list.left() > 0 {
                list.step(share.max(1), &mut rng);
            }
            same_words("D", &case, list.words(), &run_plain(&case, shift).words);
        }
    }
}

/// Single requests, of which most are spoilt by edits to several things at once.
#[test]
fn random_requests() {
    let mut seen = Seen::default();
    for (seed, kind) in KINDS {
        println!("seed {seed:#x}: {TURNS} requests");
        let mut rng = Rng::new(seed << 8);
        for _ in 0..TURNS {
            let case = accepted_fixed(&mut rng, &kind);
            let mut r = request(&mut rng, case);
            (0..rng.pick(&[0, 1, 1, 2])).for_each(|_| spoil_fixed(&mut rng, &mut r));
            if rng.once_in(3) {
                r.request.case.c = None;
                spoil(&mut rng, &mut r.request.case);
            }
            seen.note(&format!("tile call answered {}", check_run(&r).ran.answer), true);
            seen.note(&format!("state question answered {}", check_ask(&r.request).err().unwrap_or(0)), true);
        }
    }
    seen.each_at_least(16 + 13, 15);
}

fn request(rng: &mut Rng, case: Case) -> FixedRequest {
    let mut sizes = sizes(rng);
    let cut = Cut::of(&Groups::of(&case), sizes);
    let (total, index) = (cut.total(), index(rng, &cut));
    let any = rng.below(total as usize + 1) as u64;
    let done = rng.pick(&[0, 0, any, any, any, total, total, total + 1]);
    let needed = work_needed(sizes) as usize;
    let length = rng.pick(&[needed - 1, needed, needed, needed, needed, needed + 9]);
    let (budget, work, sums) = (budget(rng, total), rng.words(length), sums(rng, case.d.words.len()));
    match rng.below(24) {
        0 => sizes.rows = rng.pick(&[0, 65, u32::MAX]),
        1 => sizes.cols = rng.pick(&[0, 65, u32::MAX]),
        2 => sizes.depth = rng.pick(&[0, 129, u32::MAX]),
        _ => {}
    }
    FixedRequest { request: Request { case, sizes, done, budget, work, index }, shift: shift(rng), sums }
}
