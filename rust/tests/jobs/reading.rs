//! What is refused while a job file is read: every flaw alone, every two together, and beside questions that would
//! fail after the reading. The first in the file answers.

use crate::common::flaws::{Flaw, Step};
use crate::common::job::Job;
use crate::common::job_files::{flawed, Files, WITHOUT_C, WITH_C};
use crate::common::program::refuse;
use crate::common::seen::Seen;

fn alone(files: &Files) {
    let mut seen = Seen::default();
    let (mut cases, flaws) = (Vec::new(), files.flaws());
    for flaw in &flaws {
        seen.note(&format!("{} in record {}", flaw.number, flaw.record), true);
        cases.extend(files.sound().map(|records| (flaw.number, flawed(records, &[flaw]))));
    }
    refuse(cases);
    // 20 and 21 in each record, 1 and 23 in those of tensors, and 22 after the last.
    seen.each_at_least(2 * files.records + 2 * (files.records / 2) + 1, 2);
}

#[test]
fn every_flaw_alone() {
    alone(&WITHOUT_C);
}

#[test]
fn every_flaw_alone_with_c() {
    alone(&WITH_C);
}

/// The flaw that is found first answers, also where both are in one record. At least so many pairs are in one.
fn pairs(files: &Files, is_tried: fn(&Flaw, &Flaw) -> bool, in_one_record: usize) {
    let mut seen = Seen::default();
    let (mut cases, flaws, [records, _]) = (Vec::new(), files.flaws(), files.sound());
    for first in &flaws {
        for later in flaws.iter().filter(|later| first.is_before(later) && is_tried(first, later)) {
            seen.note("two flaws in one record", first.record == later.record);
            seen.note(&format!("{} before {}", first.number, later.number), true);
            cases.push((first.number, flawed(records.clone(), &[later, first])));
        }
    }
    refuse(cases);
    seen.at_least("two flaws in one record", in_one_record);
    // 1, 20, 21 and 23 come before each other and before 22, which is the last.
    seen.each_at_least(1 + 4 * 4 + 4, 10);
}

#[test]
fn every_pair() {
    pairs(&WITHOUT_C, |_, _| true, 100);
}

/// Every two of which one is in a record of C.
#[test]
fn every_pair_with_c() {
    pairs(&WITH_C, |first, later| [4, 5].contains(&first.record) || [4, 5].contains(&later.record), 100);
}

/// A flaw answers before a question does, even before one that an earlier record fails.
fn with_questions(files: &Files, numbers: &[u32]) {
    let mut cases = Vec::new();
    for flaw in files.flaws() {
        for number in numbers {
            let request = files.form.broken(&[&(files.form.ways)(*number)[0]]);
            cases.push((flaw.number, flawed(Job::of(&request).records(), &[&flaw])));
        }
    }
    refuse(cases);
}

#[test]
fn every_flaw_with_every_question() {
    with_questions(&WITHOUT_C, &[3, 4, 5, 6, 7, 8, 9, 10, 12]);
}

#[test]
fn every_flaw_with_every_question_and_c() {
    with_questions(&WITH_C, &[3, 4, 5, 6, 30, 7, 8, 9, 10, 12]);
}

/// A rank above 8 is refused in its turn: a flaw of an earlier record comes before it, one of a later record does not.
fn with_rank_9(files: &Files, tensors: usize) {
    let (mut cases, ways) = (Vec::new(), (files.form.ways)(1));
    assert_eq!(ways.len(), 2 * tensors);
    for flaw in files.flaws() {
        for (which, way) in ways.iter().step_by(2).enumerate() {
            let records = Job::of(&files.form.broken(&[way])).records();
            let is_earlier = (flaw.record, flaw.step) < (files.layout_of(which), Step::NumberFits);
            cases.push((if is_earlier { flaw.number } else { 1 }, flawed(records, &[&flaw])));
        }
    }
    refuse(cases);
}

#[test]
fn rank_9_with_every_flaw() {
    with_rank_9(&WITHOUT_C, 3);
}

#[test]
fn rank_9_with_every_flaw_and_c() {
    with_rank_9(&WITH_C, 4);
}
