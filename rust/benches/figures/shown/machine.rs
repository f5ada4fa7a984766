//! What the processor has, and what the loops in Rust were compiled for.

use super::text::table;
use std::process::Command;

macro_rules! features {
    ($($name:tt)*) => {
        [$(($name, std::is_x86_feature_detected!($name), cfg!(target_feature = $name))),*]
    };
}

/// Each feature of the instruction set: its name, whether the processor has it, whether the compiler may use it.
fn features() -> [(&'static str, bool, bool); 8] {
    features!("sse2" "ssse3" "sse4.1" "avx" "avx2" "avx512f" "avx512bw" "avx512vl")
}

pub fn machine() -> String {
    let said = |yes: bool| if yes { "yes" } else { "no" }.to_string();
    let row = |(name, found, used)| vec![format!("`{name}`"), said(found), said(used)];
    let header = ["instructions", "the processor has them", "the contenders in Rust may use them"];
    format!("Compiled by {}.\n\n{}", compiler(), table(&header, features().map(row)))
}

/// The version of the compiler on the path.
fn compiler() -> String {
    let answer = Command::new("rustc").arg("--version").output().map(|output| output.stdout);
    let version = answer.ok().and_then(|text| String::from_utf8(text).ok()).unwrap_or_default();
    let words: Vec<&str> = version.split_whitespace().take(2).collect();
    if words.is_empty() {
        "a rustc of unknown version".to_string()
    } else {
        words.join(" ")
    }
}
