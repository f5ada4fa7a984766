//! Packing and storing by blocks of several sorts, one tile a call, by the archive now and by the one before where there
//! is one.

use crate::blocks::{Place, Sort};
use crate::clock::{best_of, Pace};
use crate::contraction::Contraction;
use crate::engines::{self, Engine, Lent};
use crate::paged::Paged;
use std::time::Duration;

pub const PACE: Pace = Pace { turns: 1000, repeats: 20 };
/// The turns are taken in so many parts, with the other blocks in between: a tile is so short that all turns in a row
/// could fall into a moment in which the machine does something else.
const PARTS: u32 = 10;

const SORTS: [Sort; 6] =
    [Sort::Step(1), Sort::Step(7), Sort::Stretches(2), Sort::Stretches(3), Sort::Fours, Sort::Scattered];
/// Those of the small blocks.
const FEW_SORTS: [Sort; 4] = [Sort::Step(1), Sort::Step(7), Sort::Stretches(2), Sort::Scattered];

/// What a contender is tried on: a block in one place, with so many offsets.
#[derive(Clone, Copy)]
struct Tried {
    place: Place,
    count: u32,
    sort: Sort,
}

/// Blocks in one place with as many offsets stand side by side, first the one of step 1.
fn tried() -> Vec<Tried> {
    let large = [Place::RowsOfA, Place::ColumnsOfB, Place::RowsOfD, Place::RowsOfDByOnes];
    let large = large.map(|place| (place, 64, &SORTS[..]));
    let small = [5, 8, 16].map(|count| (Place::RowsOfA, count, &FEW_SORTS[..]));
    let of_sorts =
        |(place, count, sorts): (_, _, &'static [Sort])| sorts.iter().map(move |&sort| Tried { place, count, sort });
    large.into_iter().chain(small).flat_map(of_sorts).collect()
}

/// An archive on a block, with the words that it may change, and the best time so far.
struct Contender<'a> {
    engine: Engine,
    tried: Tried,
    lent: &'a Lent<'a>,
    d: Paged,
    work: Paged,
    best: Duration,
}

impl<'a> Contender<'a> {
    fn new(engine: Engine, tried: Tried, lent: &'a Lent<'a>) -> Self {
        let work = vec![0; tried.place.sizes(tried.count).work_words()];
        let (d, work) = (Paged::of(&lent.contraction.d.words), Paged::of(&work));
        Self { engine, tried, lent, d, work, best: Duration::MAX }
    }

    fn run(&mut self) {
        let sizes = self.tried.place.sizes(self.tried.count);
        self.engine.run_first(self.lent, self.d.words_mut(), sizes, self.work.words_mut());
    }

    fn is_beside(&self, other: &Self) -> bool {
        (self.tried.place, self.tried.count) == (other.tried.place, other.tried.count)
    }
}

pub struct Block {
    pub name: String,
    pub stretches: u32,
    pub before: Option<Duration>,
    pub now: Duration,
    /// The time now of the block of step 1 that stands beside this one.
    pub step_1: Duration,
}

pub fn all() -> Vec<Block> {
    eprintln!("measuring blocks by stretches");
    let tried = tried();
    let contractions: Vec<Contraction> = tried.iter().map(|t| t.place.contraction(t.sort, t.count)).collect();
    let lent: Vec<Lent<'_>> = contractions.iter().map(Lent::of).collect();
    let archives: Vec<Engine> = [engines::now()].into_iter().chain(engines::before()).collect();
    let by_archives = |(tried, lent): (&Tried, _)| {
        let tried = *tried;
        archives.iter().map(move |engine| Contender::new(*engine, tried, lent))
    };
    let mut contenders: Vec<Contender<'_>> = tried.iter().zip(&lent).flat_map(by_archives).collect();
    for _ in 0..PARTS {
        contenders.chunk_by_mut(Contender::is_beside).for_each(take_turns);
    }
    let blocks = |beside: &[Contender<'_>]| -> Vec<Block> {
        beside.chunks(archives.len()).map(|by_archives| block(by_archives, beside[0].best)).collect()
    };
    contenders.chunk_by(Contender::is_beside).flat_map(blocks).collect()
}

/// One part of the turns, of blocks that stand side by side.
fn take_turns(contenders: &mut [Contender<'_>]) {
    let mut runs: Vec<_> = contenders.iter_mut().map(|contender| || contender.run()).collect();
    let times = best_of(Pace { turns: PACE.turns / PARTS, ..PACE }, &mut runs);
    drop(runs);
    contenders.iter_mut().zip(times).for_each(|(contender, time)| contender.best = contender.best.min(time));
}

/// What the archives took, first the one now. They ran equally often, so that they have to have left the same words.
fn block(by_archives: &[Contender<'_>], step_1: Duration) -> Block {
    let now = &by_archives[0];
    let Tried { place, count, sort } = now.tried;
    let sizes = place.sizes(count);
    let name = format!("{place}, {}×{}×{}: {sort}", sizes.rows, sizes.cols, sizes.depth);
    assert!(now.d.words() != now.lent.contraction.d.words, "{name}: D is as it was");
    for other in by_archives {
        assert!(now.d.words() == other.d.words(), "{name}: the archives leave different words in D");
        assert!(now.work.words() == other.work.words(), "{name}: the archives leave different words in work");
    }
    let before = by_archives.get(1).map(|before| before.best);
    Block { name, stretches: sort.stretches(count), before, now: now.best, step_1 }
}
