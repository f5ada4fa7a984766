//! The job files that are damaged: the examples, jobs that one question refuses, and random ones, also with sums over
//! no values and with no tiles; with C and without.

use crate::common::flaws::Records;
use crate::common::groups::Groups;
use crate::common::job::Job;
use crate::common::job_make::accepted_job;
use crate::common::job_model::{answer, read};
use crate::common::make::Kind;
use crate::common::refusing::{Form, WITHOUT_C, WITH_C};
use crate::common::rng::Rng;
use std::fs;
use std::path::{Path, PathBuf};

/// The most bytes of a random job.
const LENGTH: usize = 270;

/// Few labels, and so many that ranks reach 8.
const FEW: Kind = Kind { labels: 5, extents: &[1, 2, 2, 3], terms: 24, aligned: false };
const MANY: Kind = Kind { labels: 20, extents: &[1, 1, 1, 2], terms: 8, aligned: false };

pub fn bases(rng: &mut Rng) -> Vec<Records> {
    let mut bases = examples();
    bases.extend([3, 4, 5, 7, 9, 10, 12].map(|number| refused(rng, &WITHOUT_C, number)));
    bases.extend([6, 30, 8].map(|number| refused(rng, &WITH_C, number)));
    bases.extend([FEW, FEW, FEW, MANY, MANY].map(|kind| random(rng, &kind, |_, _| true)));
    bases.push(random(rng, &FEW, |_, text| has_all(text, &[" o\n", " p\n", " f\n", " -\n"])));
    bases.push(random(rng, &FEW, |job, text| {
        job.case.c.is_some() && job.done > 0 && has_all(text, &[" o\n", " p\n", " f\n"])
    }));
    bases.push(random(rng, &FEW, |job, text| job.case.c.is_some() && has_no_terms(job, text)));
    bases.push(random(rng, &MANY, has_no_terms));
    bases.push(random(rng, &FEW, |job, text| job.case.c.is_some() && has_no_tiles(job, text)));
    bases.push(random(rng, &MANY, has_no_tiles));
    bases.push(random(rng, &FEW, |_, text| text == "tiles 0 of 0\n"));
    bases
}

fn has_all(text: &str, parts: &[&str]) -> bool {
    parts.iter().all(|part| text.contains(part))
}

/// Sums over no values, with some of the outputs done.
fn has_no_terms(job: &Job, text: &str) -> bool {
    Groups::of(&job.case).depth.size() == 0 && has_all(text, &[" o\n", " f\n"])
}

fn has_no_tiles(_: &Job, text: &str) -> bool {
    has_all(text, &["tiles 0 of 0\n", " -\n"])
}

/// The records of each example.
fn examples() -> Vec<Records> {
    let folder = Path::new(env!("CARGO_MANIFEST_DIR")).join("../examples/jobs");
    let entries = fs::read_dir(&folder).unwrap_or_else(|error| panic!("{}: {error}", folder.display()));
    let mut paths: Vec<PathBuf> = entries.map(|entry| entry.expect("an entry of the folder").path()).collect();
    paths.retain(|path| path.extension().is_some_and(|extension| extension == "job"));
    paths.sort();
    assert!(!paths.is_empty(), "no job files in {}", folder.display());
    paths.iter().map(|path| records(&fs::read(path).expect("an example"))).collect()
}

fn records(file: &[u8]) -> Records {
    let records = read(file).expect("a whole job").records();
    assert!(records.concat() == file, "read otherwise than it was written");
    records
}

/// A job that this question refuses, in one of its ways.
fn refused(rng: &mut Rng, form: &Form, number: u32) -> Records {
    let ways = (form.ways)(number);
    Job::of(&form.broken(&[&ways[rng.below(ways.len())]])).records()
}

/// A short random job that, with its answer, is one of those wanted.
fn random(rng: &mut Rng, kind: &Kind, is_wanted: fn(&Job, &str) -> bool) -> Records {
    let fits = |job: &Job| job.file().len() <= LENGTH && is_wanted(job, &answer(&job.file()));
    let mut jobs = std::iter::repeat_with(|| accepted_job(rng, kind));
    jobs.find(fits).expect("a job that fits").records()
}
