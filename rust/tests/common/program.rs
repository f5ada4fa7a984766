//! The program `nezgrak_job`, run on job files and compared with the model. It is the one that the environment variable
//! `NEZGRAK_JOB` names, or else the repository's `target/bin/nezgrak_job`.

use super::job_model::{answer, read, refused};
use std::collections::BTreeMap;
use std::ffi::OsStr;
use std::io::{ErrorKind, Write};
use std::panic::resume_unwind;
use std::path::PathBuf;
use std::process::{ChildStdin, Command, Stdio};
use std::sync::{Mutex, Once};
use std::time::{Duration, Instant};
use std::{env, thread};

/// A run that takes longer has failed.
const LIMIT: Duration = Duration::from_secs(20);

/// What a run printed, whether its exit status was 0, and how long it took.
pub struct Printed {
    pub out: Vec<u8>,
    pub err: Vec<u8>,
    pub success: bool,
    pub time: Duration,
}

fn path() -> PathBuf {
    let path = match env::var_os("NEZGRAK_JOB") {
        Some(named) => PathBuf::from(named),
        None => PathBuf::from(env!("CARGO_MANIFEST_DIR")).join("../target/bin/nezgrak_job"),
    };
    assert!(path.is_file(), "{} is missing: `make program`, in the repository, makes it", path.display());
    path
}

/// Runs the program with these arguments, and with these pieces at standard input, one after the other.
pub fn run(arguments: &[&OsStr], pieces: &[&[u8]]) -> Printed {
    let mut command = Command::new(path());
    command.args(arguments).stdin(Stdio::piped()).stdout(Stdio::piped()).stderr(Stdio::piped());
    command.env_remove("LD_LIBRARY_PATH"); // cargo's folders: the loader would look in each for the C library
    let start = Instant::now();
    let mut child = command.spawn().unwrap_or_else(|error| panic!("{}: {error}", path().display()));
    let (watched, input) = (Watched::new(child.id()), child.stdin.take().expect("a pipe"));
    let output = thread::scope(|scope| {
        scope.spawn(|| write(input, pieces));
        child.wait_with_output().expect("what the program printed")
    });
    drop(watched);
    let time = start.elapsed();
    assert!(time < LIMIT, "the program did not end within {LIMIT:?}");
    Printed { out: output.stdout, err: output.stderr, success: output.status.success(), time }
}

/// Writes the input. The program may stop reading before it ends.
fn write(mut input: ChildStdin, pieces: &[&[u8]]) {
    for (n, piece) in pieces.iter().enumerate() {
        if n > 0 {
            thread::sleep(Duration::from_millis(1)); // so that the pieces don't become one
        }
        match input.write_all(piece) {
            Err(error) if error.kind() != ErrorKind::BrokenPipe => panic!("standard input: {error}"),
            _ => {}
        }
    }
}

/// The processes that run, and when each began.
static RUNNING: Mutex<BTreeMap<u32, Instant>> = Mutex::new(BTreeMap::new());

/// A process that is killed where it runs for too long, so that nothing waits for it for ever.
struct Watched(u32);

impl Watched {
    fn new(process: u32) -> Self {
        static WATCH: Once = Once::new();
        WATCH.call_once(|| drop(thread::spawn(watch)));
        RUNNING.lock().expect("the processes").insert(process, Instant::now());
        Self(process)
    }
}

impl Drop for Watched {
    fn drop(&mut self) {
        RUNNING.lock().expect("the processes").remove(&self.0);
    }
}

/// Never ends. A process that could not be killed has its turn again.
fn watch() {
    loop {
        thread::sleep(LIMIT / 40);
        for (process, start) in RUNNING.lock().expect("the processes").iter() {
            if start.elapsed() > LIMIT {
                let _ = Command::new("sh").args(["-c", &format!("kill -KILL {process}")]).status();
            }
        }
    }
}

/// Runs the program on a file at standard input. It has to print what the model says and nothing else. Gives the text.
pub fn check(file: &[u8]) -> String {
    let expected = answer(file);
    same(file, &run(&[], &[file]), &expected);
    expected
}

/// The same for many files, shared among threads. Gives the texts in the order of the files.
pub fn check_all(files: &[Vec<u8>]) -> Vec<String> {
    println!("{} job files", files.len());
    let threads = thread::available_parallelism().map_or(1, usize::from);
    let share = files.len().div_ceil(threads).max(1);
    let check_share = |share: &[Vec<u8>]| -> Vec<String> { share.iter().map(|file| check(file)).collect() };
    thread::scope(|scope| {
        let shares: Vec<_> = files.chunks(share).map(|share| scope.spawn(move || check_share(share))).collect();
        shares.into_iter().flat_map(|share| share.join().unwrap_or_else(|panic| resume_unwind(panic))).collect()
    })
}

/// The program, and the model, have to answer a file by exactly this text.
pub fn prints(file: &[u8], text: &str) {
    assert_eq!(check(file), text, "the answer to {}", shown(file));
}

/// The program, and the model, have to refuse each file by the number before it. A case that occurs again is run once.
pub fn refuse(mut cases: Vec<(u32, Vec<u8>)>) {
    cases.sort();
    cases.dedup();
    let (numbers, files): (Vec<u32>, Vec<Vec<u8>>) = cases.into_iter().unzip();
    for ((number, file), text) in numbers.iter().zip(&files).zip(check_all(&files)) {
        assert_eq!(text, refused(*number), "the answer to {}", shown(file));
    }
}

/// Fails where a run printed anything else than a text, or ended badly.
pub fn same(file: &[u8], printed: &Printed, text: &str) {
    let Printed { out, err, success, .. } = printed;
    assert!(err.is_empty(), "{:?} at standard error for {}", String::from_utf8_lossy(err), shown(file));
    assert!(success, "a bad exit status for {}", shown(file));
    if out != text.as_bytes() {
        let out = String::from_utf8_lossy(out);
        let lines = out.split_inclusive('\n').map(Some).chain([None]);
        let expected = text.split_inclusive('\n').map(Some).chain([None]);
        let (n, (line, expected)) = lines.zip(expected).enumerate().find(|(_, (a, b))| a != b).expect("a difference");
        panic!("line {n} is {line:?} and not {expected:?} in the answer to {}", shown(file));
    }
}

/// A file as far as a reader of a failed test wants it.
fn shown(file: &[u8]) -> String {
    let held = read(file).map_or_else(|number| format!("not a job ({number})"), |job| format!("{job:?}"));
    format!("{} bytes \"{}\": {held}", file.len(), file[..file.len().min(400)].escape_ascii())
}
