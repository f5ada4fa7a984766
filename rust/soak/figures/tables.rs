//! The figures of a run as a text with tables.

use super::{Answers, Figures, ALL, DELAY, FILE, PLAIN, STATE, TILE};
use crate::common::seen::Seen;
use crate::jobs::{Files, ACCEPTED, MARKED, WITH_C};
use crate::settings::Settings;
use crate::workers::THREADS;
use std::collections::BTreeMap;
use std::time::Duration;

/// What stands where there can be no number.
const NONE: &str = "–";

const TENSORS: [&str; 4] = ["A", "B", "C", "D"];

pub fn text(settings: &Settings, files: &Files, figures: &Figures, time: Duration) -> String {
    let [count, pairs] = [settings.count, settings.recordings()].map(|count| grouped(count as usize));
    let (mutants, seed, seconds) = (grouped(files.mutants.len()), settings.seed, time.as_secs());
    let head = format!(
        "Seed {seed}: {count} contractions, {pairs} pairs of recordings and {mutants} job files in {seconds} s, on {THREADS} \
         threads. Nothing differed."
    );
    let calls = table_of(["in the lists of calls", "count"], figures.calls.counts());
    let parts = [
        vec![head, answers(figures), calls],
        tables_of("accepted contractions with", &figures.features),
        tables_of("lists on accepted contractions with", &figures.cuts),
        vec![table_of(["pairs of recordings", "count"], figures.recordings.counts())],
        vec![damages(files, figures), texts(figures)],
    ];
    parts.concat().join("\n\n")
}

/// A number with a comma after each three digits.
fn grouped(number: usize) -> String {
    let digits = number.to_string();
    let comma = |(place, digit): (usize, char)| {
        let is_first_of_three = place > 0 && (digits.len() - place) % 3 == 0;
        [is_first_of_three.then_some(','), Some(digit)]
    };
    digits.chars().enumerate().flat_map(comma).flatten().collect()
}

/// Rows of cells, of which the first row is the head and the first column has the names.
fn table(rows: &[Vec<String>]) -> String {
    let line = |cells: &Vec<String>| format!("| {} |", cells.join(" | "));
    let rule = format!("|---|{}", "--:|".repeat(rows[0].len() - 1));
    let mut lines: Vec<String> = rows.iter().map(line).collect();
    lines.insert(1, rule);
    lines.join("\n")
}

/// A table of names and their counts.
fn table_of<'a>(head: [&str; 2], counts: impl Iterator<Item = (&'a str, usize)>) -> String {
    let rows = counts.map(|(name, count)| vec![name.to_string(), grouped(count)]);
    table(&[head.map(str::to_string).to_vec()].into_iter().chain(rows).collect::<Vec<_>>())
}

fn answers(figures: &Figures) -> String {
    let head = ["answer", "plain calls", "tile calls", "state questions", "delay calls"].map(str::to_string).to_vec();
    let cell = |answers: &Answers, numbers: &[u32], number: u32| match numbers.contains(&number) {
        true => grouped(answers.count(number)),
        false => NONE.to_string(),
    };
    let row = |number: u32| {
        let name = if number == 0 { "accepted".to_string() } else { format!("refused by {number}") };
        let calls =
            [(&figures.plain, &PLAIN[..]), (&figures.tile, &TILE), (&figures.state, &STATE), (&figures.delay, &DELAY)];
        [name].into_iter().chain(calls.map(|(answers, numbers)| cell(answers, numbers, number))).collect()
    };
    table(&[head].into_iter().chain(ALL.map(row)).collect::<Vec<_>>())
}

/// The tensor that a feature is of, and what is left of its name.
fn split(name: &str) -> Option<(&str, usize)> {
    let ends = TENSORS.map(|tensor| [format!(" in {tensor}"), format!(" of {tensor}")]);
    let of_tensor = |which: usize| ends[which].iter().find_map(|end| name.strip_suffix(end.as_str()));
    (0..TENSORS.len()).find_map(|which| Some((of_tensor(which)?, which)))
}

/// A table of what has to do with one tensor, and one of the rest.
fn tables_of(head: &str, seen: &Seen) -> Vec<String> {
    let mut rows: BTreeMap<&str, [String; 4]> = BTreeMap::new();
    for (name, count) in seen.counts() {
        if let Some((feature, which)) = split(name) {
            rows.entry(feature).or_insert([NONE; 4].map(str::to_string))[which] = grouped(count);
        }
    }
    let rows = rows.into_iter().map(|(name, cells)| [vec![name.to_string()], cells.to_vec()].concat());
    let first = [vec![head.to_string()], TENSORS.map(|tensor| format!("in {tensor}")).to_vec()].concat();
    let of_tensors = table(&[first].into_iter().chain(rows).collect::<Vec<_>>());
    vec![of_tensors, table_of([head, "count"], seen.counts().filter(|(name, _)| split(name).is_none()))]
}

fn damages(files: &Files, figures: &Figures) -> String {
    let (bases, bytes) = (grouped(files.bases.len()), grouped(files.bytes()));
    let places = grouped(figures.places.len());
    let head = format!("{bases} job files of {bytes} bytes were damaged; {places} of these bytes were changed alone.");
    let left_out = format!("{} damaged files, whose sums are too long for the model, were left out.", figures.left_out);
    format!("{head} {left_out}\n\n{}", table_of(["job files", "count"], figures.damages.counts()))
}

fn texts(figures: &Figures) -> String {
    let refused = FILE.iter().map(|number| format!("refused {number}"));
    let of_names = |names: [&str; 4]| names.map(str::to_string);
    let accepted = of_names(ACCEPTED).into_iter().chain(of_names(WITH_C));
    let names: Vec<String> = accepted.chain(refused).chain(of_names(MARKED)).collect();
    let counts = names.iter().map(|name| (name.as_str(), figures.texts.count(name)));
    table_of(["answers of the program", "count"], counts)
}
