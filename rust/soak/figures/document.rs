//! Writes the figures into docs/ROBUSTNESS.md, between two comments. The rest of that file is written by hand.

use std::fs;
use std::path::Path;

const BEGIN: &str = "<!-- written by make soak: start -->\n";
const END: &str = "<!-- written by make soak: end -->\n";

pub fn write(figures: &str) {
    let path = Path::new(env!("CARGO_MANIFEST_DIR")).join("../docs/ROBUSTNESS.md");
    let old = fs::read_to_string(&path).unwrap_or_else(|error| panic!("{}: {error}", path.display()));
    let new = between(&old, figures).unwrap_or_else(|| panic!("{} lacks a comment for the figures", path.display()));
    fs::write(&path, new).unwrap_or_else(|error| panic!("{}: {error}", path.display()));
}

/// The text with these figures for those that stand between the comments.
fn between(text: &str, figures: &str) -> Option<String> {
    let (before, rest) = text.split_once(BEGIN)?;
    let (_, after) = rest.split_once(END)?;
    Some([before, BEGIN, "\n", figures, "\n\n", END, after].concat())
}
