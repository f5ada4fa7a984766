//! Puts the tables between the two marker lines of docs/PERFORMANCE.md, and the plots beside it.

use std::fs;
use std::path::{Path, PathBuf};

const START: &str = "<!-- written by make bench: start -->\n";
const END: &str = "<!-- written by make bench: end -->\n";

/// The text outside the marker lines stays as it is.
pub fn write_tables(tables: &str) {
    let path = docs().join("PERFORMANCE.md");
    let old = fs::read_to_string(&path).expect("docs/PERFORMANCE.md is a text");
    let new = with_tables(&old, tables).expect("docs/PERFORMANCE.md has one start line and one end line after it");
    fs::write(&path, new).expect("docs/PERFORMANCE.md can be written");
}

pub fn write_plot(name: &str, svg: &str) {
    fs::write(docs().join(name), svg).expect("a plot can be written into docs");
}

fn with_tables(text: &str, tables: &str) -> Option<String> {
    let (before, rest) = text.split_once(START)?;
    let (old, after) = rest.split_once(END)?;
    let once = ![old, after].iter().any(|part| part.contains(START) || part.contains(END));
    once.then(|| format!("{before}{START}{tables}{END}{after}"))
}

fn docs() -> PathBuf {
    Path::new(env!("CARGO_MANIFEST_DIR")).join("../docs")
}
