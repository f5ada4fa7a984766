//! Job files whose records stand in another order, are missing or have other marks, and files that go on after `GO`.

use crate::common::case::{Case, Tensor};
use crate::common::flaws::Records;
use crate::common::job::Job;
use crate::common::job_model::refused;
use crate::common::program::{check_all, prints, refuse};

fn of_scalars(c: Option<Tensor>) -> Records {
    let case = Case { a: Tensor::scalar(3), b: Tensor::scalar(5), c, d: Tensor::scalar(7), alpha: 2, beta: 1 };
    Job { case, as_bytes: [false, true, false], sizes: [1, 1, 1], done: 0, budget: 1 }.records()
}

/// The records of a job of single words, B's written as a byte.
fn scalars() -> Records {
    of_scalars(None)
}

const ANSWER: &str = "tiles 1 of 1\n37 f\n";

/// The same with C.
fn scalars_with_c() -> Records {
    of_scalars(Some(Tensor::scalar(4)))
}

const ANSWER_WITH_C: &str = "tiles 1 of 1\n34 f\n";

/// Every order of the records, the right one first.
fn orders(records: &[Vec<u8>]) -> Vec<Records> {
    if records.is_empty() {
        return vec![Vec::new()];
    }
    let with_first = |n: usize| {
        let others = [&records[..n], &records[n + 1..]].concat();
        orders(&others).into_iter().map(move |rest| [vec![records[n].clone()], rest].concat())
    };
    (0..records.len()).flat_map(with_first).collect()
}

#[test]
fn every_other_order() {
    let orders = orders(&scalars());
    assert_eq!(orders.len(), 5_040);
    prints(&orders[0].concat(), ANSWER);
    refuse(orders[1..].iter().map(|records| (20, records.concat())).collect());
}

/// The records of B, C and D in every order.
#[test]
fn every_other_order_around_c() {
    let records = scalars_with_c();
    let orders: Vec<Records> =
        orders(&records[2..8]).into_iter().map(|middle| [&records[..2], &middle, &records[8..]].concat()).collect();
    assert_eq!(orders.len(), 720);
    prints(&orders[0].concat(), ANSWER_WITH_C);
    refuse(orders[1..].iter().map(|records| (20, records.concat())).collect());
}

/// The records of C, each at any place of a file without them. After `GO` the file should have ended.
#[test]
fn c_at_every_place() {
    let (others, of_c) = (scalars(), &scalars_with_c()[4..6]);
    let with = |place: usize, second: usize| {
        let mut records = others.clone();
        records.insert(place, of_c[0].clone());
        records.insert(second, of_c[1].clone());
        (if place.min(second) >= 7 { 22 } else { 20 }, records.concat())
    };
    let mut cases: Vec<_> = (0..8).flat_map(|place| (0..9).map(move |second| (place, second))).collect();
    cases.retain(|places| *places != (4, 5));
    assert_eq!(cases.len(), 71);
    refuse(cases.into_iter().map(|(place, second)| with(place, second)).collect());
    prints(&scalars_with_c().concat(), ANSWER_WITH_C);
}

/// Each record once more, at any place.
fn twice(records: &Records) {
    let count = records.len();
    let twice = |n: usize, place: usize| {
        let mut more = records.clone();
        more.insert(place, records[n].clone());
        let after_go = place == count || (n, place) == (count - 1, count - 1);
        (if after_go { 22 } else { 20 }, more.concat())
    };
    refuse((0..count).flat_map(|n| (0..=count).map(move |place| twice(n, place))).collect());
}

#[test]
fn a_record_twice() {
    twice(&scalars());
}

#[test]
fn a_record_twice_with_c() {
    twice(&scalars_with_c());
}

/// All but one. Without `GO` the file ends too early, and without C's two records it has none.
fn left_out(records: &Records) {
    let last = records.len() - 1;
    let without = |n: usize| (if n == last { 21 } else { 20 }, [&records[..n], &records[n + 1..]].concat().concat());
    refuse((0..=last).map(without).collect());
}

#[test]
fn a_record_left_out() {
    left_out(&scalars());
}

/// Of C's two records both or neither.
#[test]
fn a_record_left_out_with_c() {
    let mut records = scalars_with_c();
    left_out(&records);
    records.drain(4..6);
    prints(&records.concat(), ANSWER);
}

/// Words and bytes may stand for each other, but not in C, and those of another tensor may not.
#[test]
fn words_of_another_tensor() {
    let mut cases = Vec::new();
    for (sound, of_words) in [(scalars(), &[1, 3, 5][..]), (scalars_with_c(), &[1, 3, 5, 7])] {
        for record in of_words {
            for mark in [b"WA", b"YA", b"WB", b"YB", b"WD", b"YD", b"WC", b"YC", b"WE", b"YE"] {
                let mut records = sound.clone();
                if mark[1] != records[*record][1] || mark == b"YC" {
                    records[*record][..2].copy_from_slice(mark);
                    cases.push((20, records.concat()));
                }
            }
        }
    }
    assert_eq!(cases.len(), 3 * 8 + 3 * 8 + 9);
    refuse(cases);
}

/// Byte words of C, with their right count of bytes.
#[test]
fn byte_words_of_c() {
    let mut records = scalars_with_c();
    records[5] = b"YC\x01\0\0\0\x04".to_vec();
    refuse(vec![(20, records.concat())]);
    records.remove(4);
    refuse(vec![(20, records.concat())]);
}

/// Every mark of two letters that occur in marks, in both cases, and of other bytes, in each record. Only the right one
/// is accepted: in place of one byte for a word, 4 would be read, or the other way round, and the next mark be wrong.
fn marks(sound: &Records, answer: &str) {
    let (letters, mut accepted) = (b"LWYGOABDClwygoabdc\0\n *\x80\xcc\xff", 0);
    let mut files = Vec::new();
    for record in 0..sound.len() {
        for mark in letters.iter().flat_map(|first| letters.iter().map(move |second| [*first, *second])) {
            let mut records = sound.clone();
            records[record][..2].copy_from_slice(&mark);
            files.push(records.concat());
        }
    }
    for (file, text) in files.iter().zip(check_all(&files)) {
        let is_right = *file == sound.concat();
        assert_eq!(text, if is_right { answer.to_string() } else { refused(20) });
        accepted += usize::from(is_right);
    }
    assert_eq!((accepted, files.len()), (sound.len(), sound.len() * 25 * 25));
}

#[test]
fn many_marks() {
    marks(&scalars(), ANSWER);
}

#[test]
fn many_marks_with_c() {
    marks(&scalars_with_c(), ANSWER_WITH_C);
}

/// The files of no byte, of one, and of a mark alone.
#[test]
fn the_shortest_files() {
    prints(b"", "refused 21\n");
    refuse((0..=255).map(|byte| (21, vec![byte])).collect());
    refuse(vec![(21, b"LA".to_vec()), (20, b"WA".to_vec()), (20, b"YA".to_vec()), (20, b"GO".to_vec())]);
    refuse(vec![(20, b"la".to_vec()), (20, b"AL".to_vec()), (20, b"LB".to_vec()), (20, b"\0\0".to_vec())]);
    refuse(vec![(20, b"LC".to_vec()), (20, b"WC".to_vec()), (20, b"YC".to_vec()), (20, b"LD".to_vec())]);
}

/// One byte, many, a record of each kind, and a whole second job.
#[test]
fn bytes_after_go() {
    for job in [scalars(), scalars_with_c()].map(|records| records.concat()) {
        let mut more: Vec<Vec<u8>> = (0..=255).map(|byte| vec![byte]).collect();
        more.extend((1..40).map(|length| vec![0; length]));
        more.extend(scalars_with_c());
        more.push(job.clone());
        refuse(more.iter().map(|more| (22, [&job[..], more].concat())).collect());
    }
}

/// Files around 65,536 bytes, around the program's room of 65,901 bytes, and much longer: whatever they hold, what
/// refuses them stands near their start.
#[test]
fn long_files() {
    let (job, with_c) = (scalars().concat(), scalars_with_c().concat());
    let mut cases = Vec::new();
    for length in (65_530..65_545).chain(65_895..65_906).chain([131_071, 131_072, 131_073, 1_000_000, 5_000_000]) {
        let with = |file: &[u8]| [file, &vec![b'L'; length - file.len()]].concat();
        cases.extend([(22, with(&job)), (20, with(b"")), (1, with(b"LA\x09")), (20, with(b"LA\0\0\0\0\0"))]);
        cases.extend([(23, with(b"LA\0\0\0\0\0WA\0\0\x01\0")), (22, with(&with_c))]);
        cases.extend([&job, &with_c].map(|job| (22, job.iter().copied().cycle().take(length).collect())));
    }
    refuse(cases);
}
