//! Job files with changed bytes: small ones with each byte changed to every other value, with C each of its bytes and
//! each bit of the others, ones with labels of extent 0 with each bit changed, and random edits of random ones.
//!
//! A changed byte may give a label an extent of up to 65,536. In the small files no such change makes a long sum: they
//! have no stride of 0, so that question 8 refuses a larger extent, where 6 does not. A stride that becomes 0 goes with
//! extents as they were. Random edits can make long sums; those files, few, are left out.

use crate::common::case::{Case, Tensor};
use crate::common::job::Job;
use crate::common::job_make::accepted_job;
use crate::common::job_model::{is_long, refused};
use crate::common::make::Kind;
use crate::common::program::check_all;
use crate::common::rng::Rng;
use crate::common::seen::Seen;

/// A(k) × B(k) into each of D's two words, which have another between them: four tiles, of which the second and the
/// third run.
fn small() -> Job {
    let a = Tensor::new("k", &[2], &[1], 0, &[3, 1_000_000_007]);
    let b = Tensor::new("k", &[2], &[-1], 1, &[5, 250]);
    let d = Tensor::new("i", &[2], &[2], 0, &[100, 200, 300]);
    let case = Case { a, b, c: None, d, alpha: 7, beta: 3 };
    Job { case, as_bytes: [false; 3], sizes: [1, 1, 1], done: 1, budget: 2 }
}

/// The file with each byte changed to each other value.
fn changed(file: &[u8]) -> Vec<Vec<u8>> {
    changed_to(file, |byte| (0..=255).filter(|other| *other != byte).collect())
}

/// The file with each byte changed to each of these values of it.
fn changed_to(file: &[u8], values: fn(u8) -> Vec<u8>) -> Vec<Vec<u8>> {
    let change = |(place, byte): (usize, u8)| {
        let mut changed = file.to_vec();
        changed[place] = byte;
        changed
    };
    let at = |place: usize| values(file[place]).into_iter().map(move |byte| (place, byte));
    (0..file.len()).flat_map(at).map(change).collect()
}

/// How often each number refused, and how many files were accepted.
fn note_answers(files: &[Vec<u8>]) -> Seen {
    let mut seen = Seen::default();
    for text in check_all(files) {
        seen.note(if text.starts_with("tiles ") { "accepted" } else { text.trim_end() }, true);
    }
    seen
}

fn has_each(seen: &Seen, numbers: &[u32], least: usize) {
    numbers.iter().for_each(|number| seen.at_least(refused(*number).trim_end(), least));
}

#[test]
fn every_byte_of_a_file_with_words() {
    let files = changed(&small().file());
    assert_eq!(files.len(), 118 * 255);
    let seen = note_answers(&files);
    seen.at_least("accepted", 5_000);
    has_each(&seen, &[1, 3, 4, 5, 6, 8, 9, 10, 12, 20, 21, 23], 1);
}

#[test]
fn every_byte_of_a_file_with_bytes() {
    let mut job = small();
    (0..3).for_each(|which| job.write_as_bytes(which));
    let files = changed(&job.file());
    assert_eq!(files.len(), 97 * 255);
    let seen = note_answers(&files);
    seen.at_least("accepted", 3_000);
    has_each(&seen, &[1, 3, 4, 5, 6, 8, 9, 10, 12, 20, 21, 23], 1);
}

/// The small job with a C whose entries stand in another order than D's.
fn small_with_c() -> Job {
    let mut job = small();
    job.case.c = Some(Tensor::new("i", &[2], &[-1], 1, &[40, 1_000_000_009]));
    job
}

/// C's records hold 30 bytes.
#[test]
fn every_byte_of_c() {
    let records = small_with_c().records();
    let [before, of_c, after] = [&records[..4], &records[4..6], &records[6..]].map(|part| part.concat());
    assert_eq!(of_c.len(), 30);
    let files: Vec<Vec<u8>> = changed(&of_c).iter().map(|c| [&before[..], c, &after].concat()).collect();
    assert_eq!(files.len(), 30 * 255);
    let seen = note_answers(&files);
    seen.at_least("accepted", 1_500);
    has_each(&seen, &[1, 3, 4, 5, 6, 8, 20, 21, 23, 30], 1);
}

#[test]
fn every_bit_of_a_file_with_c() {
    for done in 0..3 {
        let file = Job { done, ..small_with_c() }.file();
        let files = changed_to(&file, |byte| (0..8).map(|bit| byte ^ 1 << bit).collect());
        assert_eq!(files.len(), 8 * 148);
        let seen = note_answers(&files);
        seen.at_least("accepted", 400);
        has_each(&seen, &[1, 3, 4, 5, 6, 8, 10, 12, 20, 21, 23, 30], 1);
    }
}

/// A label of extent 0 that only A has, and one that only D has: with a bit more they have values, and the bytes around
/// them still count.
#[test]
fn every_bit_of_files_with_empty_layers() {
    let a = Tensor::new("k", &[0], &[1], 0, &[3, 1_000_000_007]);
    let d = Tensor::new("i", &[0], &[2], 0, &[100, 200, 300]);
    let case = small().case;
    let cases = [
        Case { a: a.clone(), b: Tensor::scalar(5), ..case.clone() },
        Case { d: d.clone(), ..case.clone() },
        Case { a, d, b: Tensor::scalar(5), ..case },
    ];
    for case in cases {
        let file = Job { case, done: 0, ..small() }.file();
        let files = changed_to(&file, |byte| (0..8).map(|bit| byte ^ 1 << bit).collect());
        assert_eq!(files.len(), 8 * file.len());
        let seen = note_answers(&files);
        seen.at_least("accepted", 250);
        has_each(&seen, &[1, 3, 4, 5, 8, 10, 12, 20, 21, 23], 1);
    }
}

/// The same for C: over no values, beside a D that has none, and both.
#[test]
fn every_bit_of_files_with_c_and_empty_layers() {
    let mut no_terms = small_with_c();
    (no_terms.case.a.extents[0], no_terms.case.b.extents[0]) = (0, 0);
    let mut no_entries = Job { done: 0, ..small_with_c() };
    (no_entries.case.d.extents[0], no_entries.case.tensor_mut(3).extents[0]) = (0, 0);
    for job in [no_terms, no_entries] {
        let files = changed_to(&job.file(), |byte| (0..8).map(|bit| byte ^ 1 << bit).collect());
        let seen = note_answers(&files);
        seen.at_least("accepted", 250);
        has_each(&seen, &[1, 3, 4, 5, 6, 8, 10, 12, 20, 21, 23, 30], 1);
    }
}

const KINDS: [(u64, Kind); 2] = [
    (0xc4a9_0001, Kind { labels: 3, extents: &[1, 2, 2, 3], terms: 20, aligned: false }),
    (0xc4a9_0002, Kind { labels: 9, extents: &[1, 1, 2, 2, 3], terms: 100, aligned: false }),
];

#[test]
fn random_edits() {
    let mut files = Vec::new();
    for (seed, kind) in KINDS {
        println!("seed {seed:#x}: edits of jobs of up to {} labels", kind.labels);
        let mut rng = Rng::new(seed);
        files.extend((0..3_000).map(|_| edited(&mut rng, &kind)));
    }
    let made = files.len();
    files.retain(|file| !is_long(file));
    println!("{} files with long sums were left out", made - files.len());
    assert!(made - files.len() < 30);
    let seen = note_answers(&files);
    seen.at_least("accepted", 500);
    has_each(&seen, &[1, 3, 4, 5, 6, 8, 10, 12, 20, 21, 22, 23], 5);
    has_each(&seen, &[30], 2);
}

fn edited(rng: &mut Rng, kind: &Kind) -> Vec<u8> {
    let mut file = accepted_job(rng, kind).file();
    (0..1 + rng.below(3)).for_each(|_| edit(rng, &mut file));
    file
}

/// One edit to a few bytes.
fn edit(rng: &mut Rng, file: &mut Vec<u8>) {
    let some = 1 + rng.below(4);
    let places = file.len() - some + 1;
    let (place, other) = (rng.below(places), rng.below(places));
    match rng.below(8) {
        0 => file[place] = rng.word() as u8,
        1 => file[place] ^= 1 << rng.below(8),
        2 => file[place] = file[place].wrapping_add(1),
        3 => file[place] = file[place].wrapping_sub(1),
        4 => file.copy_within(other..other + some, place),
        5 => drop(file.drain(place..place + some)),
        6 => (0..some).for_each(|_| file.insert(place, rng.word() as u8)),
        _ => file.extend_from_slice(&rng.word().to_le_bytes()[..some]),
    }
}
