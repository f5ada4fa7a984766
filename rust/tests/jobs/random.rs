//! Random jobs against the model: contractions of every sort, with C or without, from any count of tiles done and with
//! any budget, their words written as words or as bytes; then ones of which most are spoilt.

use crate::common::case::Case;
use crate::common::groups::{Cut, Groups};
use crate::common::job::Job;
use crate::common::job_make::{accepted_case, accepted_job, job_of};
use crate::common::job_model::{read, refused};
use crate::common::make::{spoil, Kind};
use crate::common::notes::{note_c, note_factors, note_labels, note_strides};
use crate::common::notes_empty::note_empty;
use crate::common::program::check_all;
use crate::common::rng::Rng;
use crate::common::seen::Seen;

const TURNS: usize = 1_000;

const KINDS: [(u64, Kind); 5] = [
    (0x10b0_0001, Kind { labels: 4, extents: &[1, 2, 3, 5, 8, 13], terms: 1_500, aligned: false }),
    (0x10b0_0002, Kind { labels: 9, extents: &[1, 2, 2, 3, 3, 4, 5], terms: 1_000, aligned: false }),
    (0x10b0_0003, Kind { labels: 20, extents: &[1, 1, 2, 2, 3], terms: 500, aligned: false }),
    (0x10b0_0004, Kind { labels: 9, extents: &[1, 2, 2, 3, 3, 4], terms: 1_000, aligned: true }),
    (0x10b0_0005, Kind { labels: 5, extents: &[1, 3, 16, 60, 64], terms: 40_000, aligned: false }),
];

/// The random jobs of a kind.
fn jobs(seed: u64, kind: &Kind) -> Vec<Job> {
    println!("seed {seed:#x}: {TURNS} jobs, contractions of up to {} labels", kind.labels);
    let mut rng = Rng::new(seed);
    (0..TURNS).map(|_| accepted_job(&mut rng, kind)).collect()
}

#[test]
fn accepted_jobs() {
    let mut seen = Seen::default();
    let jobs: Vec<Job> = KINDS.iter().flat_map(|(seed, kind)| jobs(*seed, kind)).collect();
    let files: Vec<Vec<u8>> = jobs.iter().map(Job::file).collect();
    for ((job, file), text) in jobs.iter().zip(&files).zip(check_all(&files)) {
        assert!(read(file).as_ref() == Ok(job), "read otherwise than it was written: {job:?}");
        assert!(text.starts_with("tiles "), "{text} though made to be accepted: {job:?}");
        note_factors(&mut seen, &job.case);
        note_labels(&mut seen, &job.case);
        note_strides(&mut seen, &job.case);
        note_c(&mut seen, &job.case);
        note_empty(&mut seen, &job.case);
        note_job(&mut seen, job);
        note_text(&mut seen, &text);
    }
    // The last 24 are about C.
    seen.each_at_least(66 + 39 + 4 + 24, 25);
}

fn note_job(seen: &mut Seen, job: &Job) {
    let Case { a, b, d, .. } = &job.case;
    for ((name, t), as_bytes) in [("A", a), ("B", b), ("D", d)].iter().zip(job.as_bytes) {
        seen.note(&format!("bytes above 127 in {name}"), as_bytes && t.words.iter().any(|word| *word > 127));
    }
    for (name, t) in job.case.named() {
        seen.note(&format!("more than 2,000 words in {name}"), t.words.len() > 2_000);
    }
    let request = job.request();
    let cut = Cut::of(&Groups::of(&job.case), request.sizes);
    let left = cut.total() - request.done;
    let has_c = job.case.c.is_some();
    seen.note("some tiles done before", request.done > 0);
    seen.note("C and some tiles done before", has_c && request.done > 0 && left > 0);
    seen.note("C and several panels", has_c && cut.panels > 1);
    seen.note("C and budget of less than what is left", has_c && (1..left).contains(&request.budget));
    seen.note("all tiles done before", left == 0 && cut.total() > 0);
    seen.note("no tiles at all", cut.total() == 0);
    seen.note("a budget where there are no tiles", cut.total() == 0 && request.budget > 0);
    seen.note("budget 0 with tiles left", request.budget == 0 && left > 0);
    seen.note("budget of less than what is left", (1..left).contains(&request.budget));
    seen.note("budget of what is left", request.budget == left && left > 0);
    seen.note("budget of 2^32 - 1", job.budget == u32::MAX);
    seen.note("several batch counts", cut.batch > 1);
    seen.note("several column blocks", cut.column_blocks > 1);
    seen.note("several panels", cut.panels > 1);
    seen.note("several row blocks", cut.row_blocks > 1);
}

fn note_text(seen: &mut Seen, text: &str) {
    let has = |letter: char| text.lines().skip(1).any(|line| line.ends_with(letter));
    ['o', 'p', 'f', '-'].iter().for_each(|letter| seen.note(&format!("words marked {letter}"), has(*letter)));
    seen.note("words old, part and final in one answer", has('o') && has('p') && has('f'));
    seen.note("words where there are no tiles", text.starts_with("tiles 0 of 0\n") && has('-'));
    seen.note("no words", text.lines().count() == 1);
}

/// Up to three edits, to the contraction or to a field of `GO`, so that the first question that fails shows.
#[test]
fn spoilt_jobs() {
    let mut seen = Seen::default();
    let mut files = Vec::new();
    for (seed, kind) in &KINDS {
        println!("seed {:#x}: {TURNS} jobs", !seed);
        let mut rng = Rng::new(!seed);
        files.extend((0..TURNS).map(|_| spoilt(&mut rng, kind).file()));
    }
    for text in check_all(&files) {
        let accepted = text.starts_with("tiles ");
        seen.note(if accepted { "accepted" } else { text.trim_end() }, true);
    }
    seen.at_least("accepted", 200);
    (3..=10).chain([1, 12, 20, 23, 30]).for_each(|number| seen.at_least(refused(number).trim_end(), 10));
}

/// A job whose slices may also be too long for a file.
fn spoilt(rng: &mut Rng, kind: &Kind) -> Job {
    let case = accepted_case(rng, kind);
    let mut job = job_of(rng, case);
    for _ in 0..rng.below(4) {
        match rng.below(8) {
            0 => job.sizes[rng.below(2)] = rng.pick(&[0, 65, 256, u16::MAX]),
            1 => job.sizes[2] = rng.pick(&[0, 129, 256, u16::MAX]),
            2 | 3 => job.done = rng.pick(&[1, 100_000, u32::MAX]),
            _ => spoil(rng, &mut job.case),
        }
    }
    job
}
