//! How the job program takes its file: as an argument, or at standard input where there is none.

use crate::common::job::Job;
use crate::common::job_make::accepted_job;
use crate::common::job_model::answer;
use crate::common::make::Kind;
use crate::common::program::{run, same};
use crate::common::rng::Rng;
use crate::common::temp_file::TempFile;
use crate::limits::longest;
use std::ffi::OsStr;
use std::fs;
use std::path::Path;

const EXAMPLE: &str = "tiles 3 of 8\n211 f\n402 p\n300 o\n400 o\n";

/// Runs the program on a file that it gets as an argument, which it has to leave as it was.
fn answers(name: &str, file: &[u8], text: &str) {
    let held = TempFile::new(name, file);
    same(file, &run(&[held.path().as_os_str()], &[]), text);
    assert!(fs::read(held.path()).is_ok_and(|bytes| bytes == file), "the file was changed");
}

#[test]
fn the_example_as_an_argument() {
    for name in ["a.job", "with a space", "ü", "a\nb", "\\"] {
        answers(name, &Job::example().file(), EXAMPLE);
    }
}

#[test]
fn random_jobs_as_arguments() {
    let seed = 0xf11e_0001;
    println!("seed {seed:#x}: 300 jobs");
    let (mut rng, kind) = (Rng::new(seed), Kind { labels: 6, extents: &[1, 2, 3, 5, 9], terms: 1_000, aligned: false });
    for _ in 0..300 {
        let file = accepted_job(&mut rng, &kind).file();
        answers("random", &file, &answer(&file));
    }
}

/// A file with C, and the longest that is accepted, as an argument and in pieces.
#[test]
fn files_with_c() {
    answers("c", &Job::example_with_c().file(), "tiles 3 of 8\n31 f\n22 p\n300 o\n400 o\n");
    let file = longest().file();
    let text = answer(&file);
    answers("longest", &file, &text);
    answers("longer", &[&file[..], b"\0"].concat(), "refused 22\n");
    for length in [1_000, 4_096, 32_768, 65_536, 65_899] {
        same(&file, &run(&[], &file.chunks(length).collect::<Vec<_>>()), &text);
    }
}

/// A refused file, an empty one, and one of more bytes than the program reads.
#[test]
fn other_files_as_arguments() {
    let file = Job::example().file();
    answers("empty", b"", "refused 21\n");
    answers("cut", &file[..file.len() - 1], "refused 21\n");
    answers("long", &[&file[..], &[0; 100_000]].concat(), "refused 22\n");
}

/// Where there is an argument, standard input is not read.
#[test]
fn an_argument_and_standard_input() {
    let (file, other) = (Job::example().file(), Job { budget: 8, ..Job::example() }.file());
    let held = TempFile::new("both", &file);
    same(&file, &run(&[held.path().as_os_str()], &[&other]), EXAMPLE);
}

/// A name of at least this many bytes for the same file, by slashes before it.
fn longer(path: &Path, length: usize) -> String {
    let path = path.to_str().expect("a name in UTF-8");
    "/".repeat(length.saturating_sub(path.len())) + path
}

/// The longest name that can be opened has 4,095 bytes. A name is taken whole: no longer one opens the same file.
#[test]
fn long_names() {
    let file = Job::example().file();
    let held = TempFile::new("long", &file);
    for length in [255, 256, 511, 512, 1_023, 1_024, 2_047, 2_048, 4_094, 4_095] {
        let name = longer(held.path(), length);
        same(&file, &run(&[OsStr::new(&name)], &[]), EXAMPLE);
        fails(Path::new(&(name + "x")));
    }
    for length in [4_096, 8_192, 65_535, 65_536] {
        fails(Path::new(&(longer(held.path(), length))));
        fails(Path::new(&(longer(held.path(), length) + "x")));
    }
}

/// Standard input comes in two pieces, cut at any byte.
#[test]
fn two_pieces() {
    let file = Job::example().file();
    for cut in 0..=file.len() {
        let (first, second) = file.split_at(cut);
        same(&file, &run(&[], &[first, second]), EXAMPLE);
    }
}

/// Standard input comes byte by byte, and a long one in pieces that don't fill what they are read into.
#[test]
fn many_pieces() {
    let file = Job::example().file();
    same(&file, &run(&[], &file.chunks(1).collect::<Vec<_>>()), EXAMPLE);
    let long = [&file[..], &[0; 70_000]].concat();
    same(&long, &run(&[], &long.chunks(4_097).collect::<Vec<_>>()), "refused 22\n");
}

/// Nothing is answered for what can't be opened or read, and standard error says why.
fn fails(path: &Path) {
    let printed = run(&[path.as_os_str()], &[&Job::example().file()]);
    assert!(printed.out.is_empty(), "an answer for {}: {:?}", path.display(), String::from_utf8_lossy(&printed.out));
    assert!(!printed.err.is_empty(), "nothing at standard error for {}", path.display());
}

#[test]
fn a_missing_file() {
    let gone = TempFile::new("gone", b"").path().to_path_buf();
    assert!(!gone.exists());
    fails(&gone);
    fails(Path::new(""));
    fails(&Path::new(env!("CARGO_TARGET_TMPDIR")).join("x".repeat(300)));
}

#[test]
fn a_directory() {
    fails(Path::new(env!("CARGO_TARGET_TMPDIR")));
    fails(Path::new("/"));
}

#[test]
fn a_file_taken_as_a_directory() {
    let held = TempFile::new("file", &Job::example().file());
    fails(&held.path().join("file"));
    fails(&held.path().join(""));
}
