//! Damaged job files, on which the program is compared with its model.

mod bases;
mod mutants;
mod random;

use crate::common::flaws::Records;
use crate::common::groups::{Cut, Groups};
use crate::common::job::Job;
use crate::common::job_model::{answer, is_long, read};
use crate::common::program::{run, same};
use crate::common::rng::Rng;
use crate::common::seen::Seen;
use crate::common::temp_file::TempFile;
use crate::figures::{Figures, FILE};
use mutants::{damaged, damaged_at_random, undamaged, Damage, Mutant};

/// The classes of accepted files, of which the first has all.
pub const ACCEPTED: [&str; 4] =
    ["accepted", "accepted with sums over no values", "accepted with no tiles", "accepted with no words in D"];

/// The same for the files that name C.
pub const WITH_C: [&str; 4] = [
    "accepted with C",
    "accepted with C and sums over no values",
    "accepted with C and no tiles",
    "accepted with C and tiles done before",
];

/// The classes of words that are printed.
pub const MARKED: [&str; 4] = ["words marked o", "words marked p", "words marked f", "words marked -"];

/// The files of a run.
pub struct Files {
    pub bases: Vec<Records>,
    pub mutants: Vec<Mutant>,
}

impl Files {
    /// The files as they are; then all damages that are not chosen at random, and as many random ones as make this
    /// count, in a random order. The first part is kept where less is asked for.
    pub fn of(rng: &mut Rng, count: usize, kept: usize) -> Self {
        let bases = bases::bases(rng);
        let mut mutants: Vec<Mutant> = (0..bases.len()).map(|base| undamaged(base, &bases[base])).collect();
        mutants.extend((0..bases.len()).flat_map(|base| damaged(base, &bases[base], rng)).collect::<Vec<_>>());
        assert!(mutants.len() < count, "{} files before any random damage", mutants.len());
        for _ in mutants.len()..count {
            let base = rng.below(bases.len());
            mutants.push(damaged_at_random(base, &bases[base], rng));
        }
        rng.shuffle(&mut mutants[bases.len()..]);
        mutants.truncate(kept);
        Self { bases, mutants }
    }

    /// How many bytes the files have before any damage.
    pub fn bytes(&self) -> usize {
        self.bases.iter().flatten().map(Vec::len).sum()
    }
}

/// The classes that the files of a run have to fill.
pub fn expect_all(figures: &mut Figures) {
    Damage::NAMES.iter().for_each(|name| figures.damages.add(name, 0));
    FILE.iter().for_each(|number| figures.texts.add(&format!("refused {number}"), 0));
    ACCEPTED.iter().chain(&WITH_C).chain(&MARKED).for_each(|name| figures.texts.add(name, 0));
}

/// Runs the program on a file, at standard input or by its name, and compares all that it prints with the model.
pub fn check(mutant: &Mutant, by_name: bool, figures: &mut Figures) {
    let file = &mutant.bytes;
    if is_long(file) {
        figures.left_out += 1;
        return;
    }
    let expected = answer(file);
    if by_name {
        let held = TempFile::new("soak.job", file);
        same(file, &run(&[held.path().as_os_str()], &[]), &expected);
    } else {
        same(file, &run(&[], &[file]), &expected);
    }
    note(mutant, &expected, figures);
}

fn note(mutant: &Mutant, text: &str, figures: &mut Figures) {
    figures.damages.add(mutant.damage.name(), 1);
    if let Damage::Changed(place) = mutant.damage {
        figures.places.insert((mutant.base, place));
    }
    let mut lines = text.lines();
    let first = lines.next().unwrap_or_default();
    match read(&mutant.bytes) {
        Ok(job) if first.starts_with("tiles ") => note_accepted(&job, &mut figures.texts),
        _ => figures.texts.add(first, 1),
    }
    for line in lines {
        let letter = line.rsplit(' ').next().unwrap_or_default();
        figures.texts.add(&format!("words marked {letter}"), 1);
    }
}

fn note_accepted(job: &Job, texts: &mut Seen) {
    let cut = Cut::of(&Groups::of(&job.case), job.request().sizes);
    let (no_terms, no_tiles) = (cut.depth == 0 && cut.total() > 0, cut.total() == 0);
    let classes = [true, no_terms, no_tiles, job.case.d.words.is_empty()];
    ACCEPTED.iter().zip(classes).for_each(|(name, is_there)| texts.note(name, is_there));
    let with_c = [true, no_terms, no_tiles, job.done > 0].map(|is_there| is_there && job.case.c.is_some());
    WITH_C.iter().zip(with_c).for_each(|(name, is_there)| texts.note(name, is_there));
}
