//! Job files at their limits, and one past them: ranks, counts of words, the numbers of `GO`, and the largest jobs.

use crate::common::case::{Case, Tensor};
use crate::common::formula::contraction;
use crate::common::job::Job;
use crate::common::job_model::{answer, refused};
use crate::common::program::{check, prints, run, same};
use std::time::Duration;

fn job(case: Case, sizes: [u16; 3]) -> Job {
    Job { case, as_bytes: [false; 3], sizes, done: 0, budget: u32::MAX }
}

/// One tile.
fn scalars() -> Job {
    let case = Case { a: Tensor::scalar(3), b: Tensor::scalar(5), c: None, d: Tensor::scalar(7), alpha: 2, beta: 1 };
    job(case, [64, 64, 128])
}

/// The same, with C where the tensor is C, 3.
fn scalars_for(which: usize) -> Job {
    let mut job = scalars();
    job.case.c = (which == 3).then(|| Tensor::scalar(4));
    job
}

/// One axis more for this tensor, A 0, B 1, D 2 or C 3. C's letters are D's too.
fn push(job: &mut Job, which: usize, letter: u8, extent: u32, stride: i32) {
    job.case.tensor_mut(which).push(letter, extent, stride);
    if which == 3 {
        job.case.d.push(letter, extent, 0);
    }
}

/// The first line of an answer.
fn first_line(job: &Job) -> String {
    check(&job.file()).lines().next().expect("a line").to_string()
}

#[test]
fn counts_of_4_096_words_and_one_more() {
    for which in 0..3 {
        for as_bytes in [false, true] {
            let mut job = scalars();
            job.as_bytes[which] = as_bytes;
            job.case.tensor_mut(which).words.resize(4_096, 9);
            assert_eq!(first_line(&job), "tiles 1 of 1");
            job.case.tensor_mut(which).words.push(9);
            assert_eq!(first_line(&job), "refused 23");
        }
    }
}

/// C's words are under the same limit, and never bytes.
#[test]
fn counts_of_4_096_words_of_c_and_one_more() {
    let mut job = scalars_for(3);
    job.case.tensor_mut(3).words.resize(4_096, 9);
    prints(&job.file(), "tiles 1 of 1\n34 f\n");
    let mut records = job.records();
    records[5] = [&b"YC\0\x10\0\0"[..], &[9; 4_096]].concat();
    prints(&records.concat(), &refused(20));
    job.case.tensor_mut(3).words.push(9);
    prints(&job.file(), &refused(23));
    job.case.tensor_mut(3).words.clear();
    prints(&job.file(), &refused(8));
}

/// The last of 4,096 words of C is read.
#[test]
fn the_last_word_of_c() {
    let mut job = scalars_for(3);
    job.case.c = Some(Tensor::new("", &[], &[], 4_095, &[vec![11; 4_095], vec![4]].concat()));
    prints(&job.file(), "tiles 1 of 1\n34 f\n");
    job.case.tensor_mut(3).base = 4_096;
    prints(&job.file(), &refused(8));
}

/// The last of 4,096 words is read and written.
#[test]
fn the_last_word() {
    for ways in 0..8 {
        let mut job = scalars();
        for which in 0..3 {
            let t = job.case.tensor_mut(which);
            t.base = 4_095;
            t.words = [vec![11; 4_095], t.words.clone()].concat();
            job.as_bytes[which] = ways >> which & 1 == 1;
        }
        prints(&job.file(), &format!("tiles 1 of 1\n{}37 f\n", "11 -\n".repeat(4_095)));
    }
}

#[test]
fn rank_8_and_9() {
    for which in 0..4 {
        let mut job = scalars_for(which);
        b"abcdefgh".iter().for_each(|letter| push(&mut job, which, *letter, 1, 5));
        assert_eq!(first_line(&job), "tiles 1 of 1");
        job.case.tensor_mut(which).push(b'i', 1, 5);
        assert_eq!(first_line(&job), "refused 1");
    }
}

#[test]
fn letters() {
    for byte in 0..=255 {
        let mut job = scalars();
        job.case.d.push(byte, 1, 0);
        let text = if byte.is_ascii_alphabetic() { "tiles 1 of 1" } else { "refused 3" };
        assert_eq!(first_line(&job), text);
    }
}

/// A letter of C that D has, and one that only C has.
#[test]
fn letters_of_c() {
    for byte in 0..=255 {
        let mut job = scalars_for(3);
        push(&mut job, 3, byte, 1, 0);
        assert_eq!(first_line(&job), if byte.is_ascii_alphabetic() { "tiles 1 of 1" } else { "refused 3" });
        job.case.d = Tensor::scalar(7);
        assert_eq!(first_line(&job), if byte.is_ascii_alphabetic() { "refused 30" } else { "refused 3" });
    }
}

/// Strides are signed and bases are not.
#[test]
fn extents_strides_and_bases() {
    let limit = 16_777_216;
    for which in 0..4 {
        let with = |extent, stride, base| {
            let mut job = scalars_for(which);
            push(&mut job, which, b'i', extent, stride);
            job.case.tensor_mut(which).base = base;
            first_line(&job)
        };
        for stride in [limit, -limit, 0] {
            assert_eq!(with(1, stride, 0), "tiles 1 of 1");
        }
        for stride in [limit + 1, -limit - 1, i32::MAX, i32::MIN] {
            assert_eq!(with(1, stride, 0), "refused 5");
        }
        for base in [1, limit as u32] {
            assert_eq!(with(1, 1, base), "refused 8");
        }
        for base in [limit as u32 + 1, 1 << 31, u32::MAX] {
            assert_eq!(with(1, 1, base), "refused 5");
        }
        for extent in [65_537, 1 << 31, u32::MAX] {
            assert_eq!(with(extent, 0, 0), "refused 4");
        }
        assert_eq!(with(0, 0, 0), if which >= 2 { "tiles 0 of 0" } else { "tiles 1 of 1" });
    }
}

/// A sum of 65,536 terms, each of them the same two words.
#[test]
fn extent_65_536() {
    for which in 0..2 {
        let mut job = scalars();
        job.case.tensor_mut(which).push(b'i', 65_536, 0);
        prints(&job.file(), &format!("tiles 512 of 512\n{} f\n", 65_536 * 30 + 7));
        job.budget = 511;
        prints(&job.file(), &format!("tiles 511 of 512\n{} p\n", 65_408 * 30 + 7));
    }
}

/// The largest total: the last tiles, the first ones, and a count over it. The model would take too long.
#[test]
fn a_total_of_2_to_the_30() {
    const TOTAL: u32 = 1 << 30;
    let mut job = scalars();
    job.sizes = [1, 1, 1];
    job.case.a = Tensor::new("ij", &[32_768, 32_768], &[0, 0], 0, &[3]);
    let answers = |done, budget, text: &str| {
        let file = Job { done, budget, ..job.clone() }.file();
        same(&file, &run(&[], &[&file]), text);
    };
    answers(TOTAL - 3, u32::MAX, "tiles 1073741824 of 1073741824\n97 f\n");
    answers(TOTAL - 3, 2, "tiles 1073741823 of 1073741824\n67 p\n");
    answers(TOTAL, u32::MAX, "tiles 1073741824 of 1073741824\n7 f\n");
    answers(0, 2, "tiles 2 of 1073741824\n67 p\n");
    answers(0, 0, "tiles 0 of 1073741824\n7 o\n");
    answers(TOTAL + 1, 0, "refused 12\n");
    answers(u32::MAX, u32::MAX, "refused 12\n");
    let mut larger = job.clone();
    larger.case.a.extents[1] = 32_769;
    prints(&larger.file(), &refused(7));
}

#[test]
fn tile_sizes() {
    for (which, limit) in [(0, 64), (1, 64), (2, 128)] {
        let with = |size| {
            let mut job = scalars();
            job.sizes[which] = size;
            first_line(&job)
        };
        (1..=limit).for_each(|size| assert_eq!(with(size), "tiles 1 of 1"));
        for size in [0, limit + 1, limit + 2, 256, 257, 256 + limit, 1 << 15, u16::MAX] {
            assert_eq!(with(size), "refused 10");
        }
    }
}

/// Three tensors of rank 8 and 4,096 words.
fn large() -> Case {
    contraction(0x111e_0001, "abcdefgh,abcdefgh>abcdefgh", "abcdefgh", &[4, 4, 4, 4, 4, 4, 1, 1], 0)
}

/// The longest file without C that is accepted; each line of its answer is as long as a line can be.
#[test]
fn the_longest_file_without_c_and_the_longest_answer() {
    let mut case = large();
    (case.alpha, case.beta) = (0, 1);
    case.d.words.iter_mut().for_each(|word| *word |= 0xf000_0000);
    let file = job(case, [1, 1, 1]).file();
    assert_eq!(file.len(), 49_431);
    let text = check(&file);
    assert_eq!(text.lines().next(), Some("tiles 4096 of 4096"));
    assert_eq!(text.len(), "tiles 4096 of 4096\n".len() + 4_096 * "4294967295 f\n".len());
    prints(&[&file[..], b"\0"].concat(), &refused(22));
    prints(&file[..file.len() - 1], &refused(21));
}

/// Four tensors of rank 8 and 4,096 words. The program reads one byte more than such a file has.
pub fn longest() -> Job {
    let mut case = large();
    let (letters, extents) = ("hgfedcba", [1, 1, 4, 4, 4, 4, 4, 4]);
    let words: Vec<u32> = (0..4_096).map(|n| n * 1_000_003).collect();
    case.c = Some(Tensor::new(letters, &extents, &[0, 0, -1, 4, 16, 64, 256, 1_024], 3, &words));
    job(case, [3, 1, 1])
}

#[test]
fn the_longest_file() {
    let file = longest().file();
    assert_eq!(file.len(), 65_900);
    assert!(check(&file).starts_with("tiles 4096 of 4096\n"));
    for more in [1, 2, 3, 100, 100_000] {
        prints(&[&file[..], &vec![0; more]].concat(), &refused(22));
    }
    (1..60).for_each(|less| prints(&file[..file.len() - less], &refused(21)));
    let some = Job { done: 5, budget: 1_000, ..longest() };
    assert!(check(&some.file()).starts_with("tiles 1005 of 4096\n"));
    let whole = check(&Job { budget: 3 << 24, ..longest() }.file());
    assert_eq!(whole.lines().filter(|line| line.ends_with(" f")).count(), 4_096, "the last byte is read");
}

/// Fewer words of C, so that the file ends below 65,536 bytes, there and above.
#[test]
fn lengths_around_65_536_bytes() {
    for fewer in [1, 2, 89, 90, 91, 92, 93, 4_000, 4_095] {
        let mut job = longest();
        let c = job.case.tensor_mut(3);
        c.words.truncate(4_096 - fewer);
        (c.strides, c.base) = (vec![0; 8], c.words.len() as u32 - 1);
        let file = job.file();
        assert_eq!(file.len(), 65_900 - 4 * fewer);
        assert!(check(&file).starts_with("tiles 4096 of 4096\n"));
        prints(&[&file[..], b"\0"].concat(), &refused(22));
        prints(&file[..file.len() - 1], &refused(21));
    }
}

/// The largest counts in a file of the greatest length, each refused where it stands.
#[test]
fn a_count_over_the_limit_in_the_longest_file() {
    let sound = longest().records();
    for record in [1, 3, 5, 7] {
        let mut records = sound.clone();
        records[record][2..6].copy_from_slice(&4_097_u32.to_le_bytes());
        prints(&records.concat(), &refused(23));
        records[record - 1][2] = 9;
        prints(&records.concat(), &refused(1));
    }
}

/// Matrices of 64 × 64 words, in the smallest tiles and in the largest: answered within a second.
#[test]
fn the_largest_matrices_take_less_than_a_second() {
    let case = contraction(0x111e_0002, "ik,kj>ij", "ijk", &[64, 64, 64], 0);
    for (sizes, total) in [([1, 1, 1], 262_144), ([64, 64, 128], 1)] {
        for budget in [u32::MAX, total, total / 2] {
            let file = Job { budget, ..job(case.clone(), sizes) }.file();
            let printed = run(&[], &[&file]);
            let text = answer(&file);
            assert!(text.starts_with(&format!("tiles {} of {total}\n", budget.min(total))));
            same(&file, &printed, &text);
            println!("{budget} of {total} tiles of {sizes:?} took {:?}", printed.time);
            assert!(printed.time < Duration::from_secs(1), "{:?}", printed.time);
        }
    }
}
