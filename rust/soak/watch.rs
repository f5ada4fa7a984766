//! The run is a process of its own, so that a crash or a hang of the engine is told with what the threads were at.

use crate::common::temp_file::TempFile;
use crate::settings::{Item, Settings};
use crate::workers::THREADS;
use std::fs::{self, File, OpenOptions};
use std::os::unix::fs::FileExt;
use std::os::unix::process::ExitStatusExt;
use std::process::{Child, Command, ExitCode};
use std::time::{Duration, Instant};
use std::{env, thread};

/// Names the file in which the threads write what they are at.
const VARIABLE: &str = "NEZGRAK_SOAK_PROGRESS";

/// How many bytes of that file a thread has.
const WIDTH: usize = 32;

/// Threads that check nothing more in so long a time hang.
const LIMIT: Duration = Duration::from_secs(60);

/// What each thread is at.
pub struct Progress(File);

impl Progress {
    /// None in the process that watches.
    pub fn inherited() -> Option<Self> {
        let path = env::var_os(VARIABLE)?;
        Some(Self(OpenOptions::new().write(true).open(path).expect("the file of the progress")))
    }

    pub fn at(&self, thread: u64, item: Item) {
        let text = format!("{item:<WIDTH$}");
        self.0.write_all_at(text.as_bytes(), thread * WIDTH as u64).expect("the file of the progress");
    }
}

/// Runs this program again, as the one that checks, and waits for its end.
pub fn watch(settings: &Settings) -> ExitCode {
    let progress = TempFile::new("soak.progress", &[b' '; WIDTH * THREADS as usize]);
    let program = env::current_exe().expect("this program");
    let mut child = Command::new(program).env(VARIABLE, progress.path()).spawn().expect("this program again");
    match wait(&mut child, &progress) {
        Ok(true) => ExitCode::SUCCESS,
        Ok(false) => ExitCode::FAILURE,
        Err(why) => {
            tell(settings.seed, &why, &progress);
            ExitCode::FAILURE
        }
    }
}

/// One of the threads is at what ended the run.
fn tell(seed: u64, why: &str, progress: &TempFile) {
    eprintln!("FAILED: seed {seed}: {why}. One of these, alone:");
    let items = fs::read_to_string(progress.path()).expect("the file of the progress");
    items.split_whitespace().for_each(|item| eprintln!("    SEED={seed} {item} make soak"));
}

/// Whether the process found everything as it has to be, or why it could not say.
fn wait(child: &mut Child, progress: &TempFile) -> Result<bool, String> {
    let (mut moved, mut last) = (Instant::now(), Vec::new());
    loop {
        if let Some(status) = child.try_wait().expect("the exit status") {
            return status.signal().map_or(Ok(status.success()), |signal| Err(format!("ended by signal {signal}")));
        }
        let now = fs::read(progress.path()).expect("the file of the progress");
        if now != last {
            (moved, last) = (Instant::now(), now);
        } else if moved.elapsed() > LIMIT {
            child.kill().and_then(|()| child.wait()).expect("the end of the run");
            return Err(format!("nothing went on for {LIMIT:?}"));
        }
        thread::sleep(Duration::from_millis(50));
    }
}
