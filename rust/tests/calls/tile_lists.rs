//! Random lists of tile calls and state questions against the model, with C and without: every answer and every word
//! after each call.

use crate::common::call;
use crate::common::case::{same_words, Case, Tensor};
use crate::common::groups::{Cut, Group, Groups};
use crate::common::list::List;
use crate::common::make::{accepted, accepted_with_c, spoil, Kind};
use crate::common::notes::note_c;
use crate::common::notes_empty::note_empty;
use crate::common::request::{work_needed, Request};
use crate::common::rng::Rng;
use crate::common::seen::Seen;
use crate::common::stretches::{classes, CLASSES};
use crate::common::tile_call::{check_ask, check_run};
use nezgrak::{OutputIndex, TileSizes};
use std::ops::Range;

const TURNS: usize = 2_500;

const KINDS: [(u64, Kind); 4] = [
    (0x711e_0001, Kind { labels: 4, extents: &[1, 2, 3, 5, 8, 13], terms: 1_500, aligned: false }),
    (0x711e_0002, Kind { labels: 9, extents: &[1, 2, 2, 3, 3, 4, 5], terms: 1_000, aligned: false }),
    (0x711e_0003, Kind { labels: 9, extents: &[1, 2, 2, 3, 3, 4], terms: 1_000, aligned: true }),
    (0x711e_0004, Kind { labels: 5, extents: &[1, 3, 9, 30, 130], terms: 6_000, aligned: false }),
];

/// Sizes that question 10 accepts: mostly small, so that there are several tiles, and up to the limits.
fn sizes(rng: &mut Rng) -> TileSizes {
    let mut size = |limit| {
        let any = 1 + rng.below(limit as usize) as u32;
        rng.pick(&[1, 1, 2, 2, 3, 4, 5, 8, any, limit])
    };
    TileSizes { rows: size(64), cols: size(64), depth: size(128) }
}

/// Mostly less than what is left.
fn budget(rng: &mut Rng, left: u64) -> u64 {
    let some = rng.below(left as usize + 1) as u64;
    let few = [0, 1, 1, 2, some / 8, some / 8, some / 4, some];
    let many = [left.saturating_sub(1), left, left + 1, 1 << 32, u64::MAX];
    if rng.once_in(4) {
        rng.pick(&many)
    } else {
        rng.pick(&few)
    }
}

/// Too short, exact or longer.
fn work(rng: &mut Rng, needed: usize) -> Vec<u32> {
    let length = rng.pick(&[0, needed - 1, needed, needed, needed, needed + 1, needed + 70]);
    rng.words(length)
}

/// Mostly in range: one count is outside once in six. Of a group of size 0 every count is.
fn index(rng: &mut Rng, cut: &Cut) -> OutputIndex {
    let mut inside = |size: u64| {
        let any = rng.below(size.max(1) as usize) as u64;
        rng.pick(&[0, any, any, size.saturating_sub(1)])
    };
    let mut index = OutputIndex::new(inside(cut.batch), inside(cut.row), inside(cut.column));
    let mut outside = |size: u64| rng.pick(&[size, size + 1, 1 << 32, u64::MAX]);
    let past = [outside(cut.batch), outside(cut.row), outside(cut.column)];
    match rng.below(18) {
        0 => index.batch = past[0],
        1 => index.row = past[1],
        2 => index.column = past[2],
        _ => {}
    }
    index
}

/// How a contraction is made.
type Make = fn(&mut Rng, &Kind) -> Case;

#[test]
fn random_lists() {
    lists(accepted).each_at_least(39 + 39 + 6 + 4 * 4, 50);
}

#[test]
fn random_lists_with_c() {
    lists(accepted_with_c).each_at_least(45 + 45 + 6 + 4 + 6 * 4, 50);
}

fn lists(make: Make) -> Seen {
    let mut seen = Seen::default();
    for (seed, kind) in KINDS {
        println!("seed {seed:#x}: {TURNS} lists of calls, contractions of up to {} labels", kind.labels);
        let mut rng = Rng::new(seed);
        for _ in 0..TURNS {
            let case = make(&mut rng, &kind);
            let mut list = list_of(&mut rng, &case);
            seen.note("list that begins after some tiles", list.done() > 0);
            note_cut(&mut seen, &case, &list.model.cut);
            note_empty(&mut seen, &case);
            note_c(&mut seen, &case);
            let start = list.done();
            (0..1 + rng.below(12)).for_each(|_| turn(&mut rng, &mut list, &mut seen));
            note_stretches(&mut seen, &case, &list.model.cut, start..list.done());
        }
    }
    seen
}

/// Mostly from the first tile on.
fn list_of(rng: &mut Rng, case: &Case) -> List {
    let sizes = sizes(rng);
    let total = Cut::of(&Groups::of(case), sizes).total();
    let any = rng.below(total as usize + 1) as u64;
    List::new(case, sizes, rng.pick(&[0, 0, 0, 0, any, total]))
}

/// One tile call, then a few state questions.
fn turn(rng: &mut Rng, list: &mut List, seen: &mut Seen) {
    let (before, left) = (list.done(), list.left());
    let (budget, work) = (budget(rng, left), work(rng, list.work_needed()));
    note_call(seen, left, budget, work.len(), list.work_needed());
    let after_last = left == 0 && budget > 0 && work.len() >= list.work_needed();
    seen.note("call after the last tile", after_last && before > 0);
    seen.note("call where there are no tiles", after_last && before == 0);
    let answer = list.run(budget, work);
    seen.note("call refused by 11", answer == 11);
    seen.note("call that ran the last tile", list.left() == 0 && left > 0);
    seen.note("call that stopped between two tiles", list.done() > before && list.left() > 0);
    for _ in 0..4 {
        let index = index(rng, &list.model.cut);
        let state = list.ask(index);
        note_state(seen, &list.model.cut, state);
    }
}

fn note_state(seen: &mut Seen, cut: &Cut, state: Result<u32, u32>) {
    seen.note("question refused by 13", state == Err(13) && cut.total() > 0);
    seen.note("question refused by 13 where there are no tiles", state == Err(13) && cut.total() == 0);
    for (number, name) in ["old", "part", "final"].iter().enumerate() {
        seen.note(&format!("state {name}"), state == Ok(number as u32));
        if *name != "part" {
            seen.note(&format!("state {name} with depth size 0"), state == Ok(number as u32) && cut.depth == 0);
        }
    }
}

fn note_call(seen: &mut Seen, left: u64, budget: u64, room: usize, needed: usize) {
    seen.note("budget 0", budget == 0);
    seen.note("budget 1", budget == 1);
    seen.note("budget of what is left", budget == left);
    seen.note("budget over what is left", budget > left);
    seen.note("budget 2^64 - 1", budget == u64::MAX);
    seen.note("work one word too short", room + 1 == needed);
    seen.note("work exact", room == needed);
    seen.note("work longer", room > needed);
}

fn note_cut(seen: &mut Seen, case: &Case, cut: &Cut) {
    seen.note("several batch counts", cut.batch > 1);
    seen.note("several column blocks", cut.column_blocks > 1);
    seen.note("several panels", cut.panels > 1);
    seen.note("several row blocks", cut.row_blocks > 1);
    seen.note("rows at an edge", cut.row % cut.tile_rows != 0);
    seen.note("columns at an edge", cut.column % cut.tile_cols != 0);
    seen.note("depth at an edge", cut.depth % cut.tile_depth != 0);
    let larger = cut.tile_rows > cut.row && cut.tile_cols > cut.column && cut.tile_depth > cut.depth;
    seen.note("tile larger than all groups", larger);
    let (groups, mut empty_folds) = (Groups::of(case), false);
    note_blocks(seen, "rows of A", &case.a, &groups.row, cut.tile_rows);
    note_blocks(seen, "rows of D", &case.d, &groups.row, cut.tile_rows);
    note_blocks(seen, "columns of B", &case.b, &groups.column, cut.tile_cols);
    note_blocks(seen, "columns of D", &case.d, &groups.column, cut.tile_cols);
    if let Some(c) = &case.c {
        note_blocks(seen, "rows of C", c, &groups.row, cut.tile_rows);
        note_blocks(seen, "columns of C", c, &groups.column, cut.tile_cols);
    }
    for (name, group) in
        [("batch", &groups.batch), ("row", &groups.row), ("column", &groups.column), ("depth", &groups.depth)]
    {
        seen.note(&format!("{name} labels that fold"), folds(case, group).contains(&1));
        empty_folds |= folds(case, group).contains(&0);
    }
    seen.note("label of extent 0 that folds", empty_folds);
    seen.note("panel with no terms", cut.depth == 0 && cut.total() > 0);
}

/// Where a label goes on, in every tensor, where the one before it ends: 0 where one of the two has extent 0, else 1.
fn folds(case: &Case, group: &Group) -> Vec<u32> {
    let labels: Vec<_> = group.0.iter().filter(|(_, extent)| *extent != 1).collect();
    let goes_on =
        |t: &Tensor, (letter, extent): (u8, u32), next: u8| t.stride(next) == i64::from(extent) * t.stride(letter);
    let two_fold = |two: &&[&(u8, u32)]| case.tensors().iter().all(|t| goes_on(t, *two[0], two[1].0));
    labels.windows(2).filter(two_fold).map(|two| two[0].1.min(two[1].1).min(1)).collect()
}

/// Whether a group, cut into blocks, has a scattered one in a tensor, or an even one with a step below 0 or of 0.
fn note_blocks(seen: &mut Seen, name: &str, t: &Tensor, group: &Group, width: u64) {
    let blocks = group.blocks(width).filter(|counts| counts.end - counts.start > 1);
    let steps: Vec<Option<i64>> = blocks.map(|counts| group.even_step(t, counts)).collect();
    seen.note(&format!("scattered {name}"), steps.contains(&None));
    seen.note(&format!("{name} counting down"), steps.iter().flatten().any(|step| *step < 0));
    if !name.ends_with('D') {
        seen.note(&format!("step 0 in {name}"), steps.contains(&Some(0)));
    }
}

/// How many tiles were run whose rows and columns have how many stretches, in each tensor that has any.
fn note_stretches(seen: &mut Seen, case: &Case, cut: &Cut, tiles: Range<u64>) {
    let (groups, tiles) = (Groups::of(case), tiles.map(|n| cut.tile(n)).collect::<Vec<_>>());
    for (name, t) in case.named() {
        if name != "B" {
            let classes = classes(t, &groups.row, cut.tile_rows);
            note_classes(seen, &format!("rows of {name}"), tiles.iter().map(|tile| classes[tile[3] as usize]));
        }
        if name != "A" {
            let classes = classes(t, &groups.column, cut.tile_cols);
            note_classes(seen, &format!("columns of {name}"), tiles.iter().map(|tile| classes[tile[1] as usize]));
        }
    }
}

/// The classes are those of the blocks of the tiles.
fn note_classes<'a>(seen: &mut Seen, name: &str, classes: impl Iterator<Item = &'a str> + Clone) {
    for class in CLASSES {
        let tiles = classes.clone().filter(|met| *met == class);
        seen.add(&format!("tile with {class} in {name}"), tiles.count());
    }
}

/// From the first tile to the last, whatever the budgets, D becomes what the plain engine leaves.
#[test]
fn the_last_tile_leaves_what_the_plain_engine_leaves() {
    [accepted, accepted_with_c].into_iter().for_each(by_both_engines);
}

fn by_both_engines(make: Make) {
    for (seed, kind) in KINDS {
        println!("seed {seed:#x}: {} contractions", TURNS / 10);
        let mut rng = Rng::new(!seed);
        for _ in 0..TURNS / 10 {
            let case = make(&mut rng, &kind);
            let mut list = List::new(&case, sizes(&mut rng), 0);
            let share = list.left() / (1 + rng.below(6) as u64);
            list.step(share.max(1), &mut rng);
            while list.left() > 0 {
                list.step(share.max(1), &mut rng);
            }
            same_words("D", &case, list.words(), &call::run(&case).words);
        }
    }
}

/// Single requests, of which most are spoilt by edits to several things at once.
#[test]
fn random_requests() {
    requests(accepted).each_at_least(26 + 5, 40);
}

#[test]
fn random_requests_with_c() {
    requests(accepted_with_c).each_at_least(28 + 5, 40);
}

fn requests(make: Make) -> Seen {
    let mut seen = Seen::default();
    for (seed, kind) in KINDS {
        println!("seed {seed:#x}: {TURNS} requests");
        let mut rng = Rng::new(seed << 8);
        for _ in 0..TURNS {
            let mut case = make(&mut rng, &kind);
            let spoilt = rng.pick(&[0, 0, 0, 0, 0, 1, 1, 2]);
            let request = request(&mut rng, case.clone());
            (0..spoilt).for_each(|_| spoil(&mut rng, &mut case));
            let request = Request { case, ..request };
            note_answers(&mut seen, &request, check_run(&request).answer, check_ask(&request).err().unwrap_or(0));
        }
    }
    seen
}

fn note_answers(seen: &mut Seen, request: &Request, of_tiles: u32, of_state: u32) {
    seen.note(&format!("tile call answered {of_tiles}"), true);
    seen.note(&format!("state question answered {of_state}"), true);
    let no_tiles = request.case.d.is_empty();
    for number in [0, 11, 12] {
        seen.note(&format!("tile call where there are no tiles: {number}"), no_tiles && of_tiles == number);
    }
    for number in [12, 13] {
        seen.note(&format!("state question where there are no tiles: {number}"), no_tiles && of_state == number);
    }
}

fn request(rng: &mut Rng, case: Case) -> Request {
    let mut sizes = sizes(rng);
    let cut = Cut::of(&Groups::of(&case), sizes);
    let (total, index) = (cut.total(), index(rng, &cut));
    let any = rng.below(total as usize + 1) as u64;
    let done = rng.pick(&[0, any, any, any, total, total, total + 1, u64::MAX]);
    let (budget, work) = (budget(rng, total), work(rng, work_needed(sizes) as usize));
    match rng.below(24) {
        0 => sizes.rows = rng.pick(&[0, 65, u32::MAX]),
        1 => sizes.cols = rng.pick(&[0, 65, u32::MAX]),
        2 => sizes.depth = rng.pick(&[0, 129, u32::MAX]),
        _ => {}
    }
    Request { case, sizes, done, budget, work, index }
}
