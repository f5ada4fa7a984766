//! A bounded run for robustness: random contractions and recordings through the C calls, and damaged job files through
//! the program, all compared with the models that the tests use. `make soak` runs it; docs/ROBUSTNESS.md says what it shows.

#[path = "../tests/common/mod.rs"]
mod common;
mod contractions;
mod figures;
mod jobs;
mod recordings;
mod settings;
mod watch;
mod workers;

use common::rng::Rng;
use figures::{document, Figures};
use jobs::Files;
use settings::{Settings, FILES};
use std::process::ExitCode;
use std::sync::atomic::AtomicBool;
use std::time::Instant;
use watch::Progress;
use workers::{derived, tell_failures, Workers};

fn main() -> ExitCode {
    let settings = Settings::read();
    match Progress::inherited() {
        None => watch::watch(&settings),
        Some(progress) if soak(&settings, &progress) => ExitCode::SUCCESS,
        Some(_) => ExitCode::FAILURE,
    }
}

/// Whether everything was as it has to be.
fn soak(settings: &Settings, progress: &Progress) -> bool {
    tell_failures(settings.seed);
    let start = Instant::now();
    let rng = &mut Rng::new(derived(settings.seed, u64::MAX));
    let files = Files::of(rng, FILES as usize, settings.files() as usize);
    let workers = Workers { settings, files: &files, progress, failed: AtomicBool::new(false) };
    let Some(figures) = workers.run() else { return false };
    if let Some(item) = settings.alone {
        let found = if figures.left_out > 0 { "left out, being too long for the model" } else { "as it has to be" };
        println!("seed {}, {item}: {found}", settings.seed);
        return true;
    }
    let text = figures::text(settings, &files, &figures, start.elapsed());
    println!("{text}");
    let is_covered = covers(settings, &files, figures);
    if is_covered && settings.is_full() {
        document::write(&text);
    }
    is_covered
}

/// Whether every class was filled, and in a full run every byte of the job files changed.
fn covers(settings: &Settings, files: &Files, mut figures: Figures) -> bool {
    jobs::expect_all(&mut figures);
    let mut missing: Vec<String> =
        figures.empty().iter().map(|class| format!("nothing was counted as \"{class}\"")).collect();
    let (changed, bytes) = (figures.places.len(), files.bytes());
    if settings.is_full() && changed < bytes {
        missing.push(format!("of {bytes} bytes of job files only {changed} were changed alone"));
    }
    missing.iter().for_each(|what| eprintln!("FAILED: seed {}: {what}", settings.seed));
    missing.is_empty()
}
