//! The threads of a run, and what each checks.

use crate::common::rng::Rng;
use crate::contractions;
use crate::figures::Figures;
use crate::jobs::{self, Files};
use crate::recordings;
use crate::settings::{Item, Settings};
use crate::watch::Progress;
use std::cell::Cell;
use std::panic::{catch_unwind, set_hook, AssertUnwindSafe};
use std::sync::atomic::{AtomicBool, Ordering};
use std::thread;

/// One for each core.
pub const THREADS: u64 = 2;

/// One file in so many is handed to the program by its name, the others at standard input.
const BY_NAME: u64 = 16;

/// Tells the seeds of the recordings from those of the contractions, which have the numbers of the threads.
const RECORDINGS: u64 = 1 << 32;

thread_local! {
    /// What this thread is at.
    static AT: Cell<Option<Item>> = const { Cell::new(None) };
}

/// Has a check that fails say how to repeat it, in one piece with what differed.
pub fn tell_failures(seed: u64) {
    set_hook(Box::new(move |difference| match AT.get() {
        Some(item) => eprintln!("FAILED: seed {seed}, {item}. Alone: SEED={seed} {item} make soak\n{difference}"),
        None => eprintln!("FAILED: {difference}"),
    }));
}

pub struct Workers<'a> {
    pub settings: &'a Settings,
    pub files: &'a Files,
    pub progress: &'a Progress,
    pub failed: AtomicBool,
}

impl Workers<'_> {
    /// Checks everything. None where a check failed, which is told when it happens.
    pub fn run(&self) -> Option<Figures> {
        let mut figures = Figures::default();
        thread::scope(|scope| {
            let threads: Vec<_> = (0..THREADS).map(|thread| scope.spawn(move || self.share(thread))).collect();
            let shares = threads.into_iter().map(|thread| thread.join().expect("a thread's figures"));
            shares.for_each(|share| figures.add(&share));
        });
        (!self.failed.load(Ordering::Relaxed)).then_some(figures)
    }

    fn share(&self, thread: u64) -> Figures {
        let mut figures = Figures::default();
        for item in self.items(thread) {
            self.progress.at(thread, item);
            AT.set(Some(item));
            let checked = catch_unwind(AssertUnwindSafe(|| self.check(item, &mut figures)));
            self.failed.fetch_or(checked.is_err(), Ordering::Relaxed);
            if self.failed.load(Ordering::Relaxed) {
                break;
            }
        }
        figures
    }

    fn items(&self, thread: u64) -> Vec<Item> {
        let own = |count: u64| (thread..count).step_by(THREADS as usize);
        match self.settings.alone {
            Some(item) => own(1).map(|_| item).collect(),
            None => {
                let files = own(self.files.mutants.len() as u64).map(Item::File);
                let recordings = own(self.settings.recordings()).map(Item::Recordings);
                own(self.settings.count).map(Item::Contraction).chain(recordings).chain(files).collect()
            }
        }
    }

    fn check(&self, item: Item, figures: &mut Figures) {
        match item {
            Item::Contraction(number) => {
                let of_thread = derived(self.settings.seed, number % THREADS);
                contractions::check(&mut Rng::new(derived(of_thread, number)), figures);
            }
            Item::Recordings(number) => {
                let of_recordings = derived(self.settings.seed, RECORDINGS);
                recordings::check(&mut Rng::new(derived(of_recordings, number)), figures);
            }
            Item::File(number) => {
                jobs::check(&self.files.mutants[number as usize], number % BY_NAME == 0, figures);
            }
        }
    }
}

/// A seed for one of many things that come from one seed.
pub fn derived(seed: u64, number: u64) -> u64 {
    Rng::new(Rng::new(seed).next() ^ number).next()
}
