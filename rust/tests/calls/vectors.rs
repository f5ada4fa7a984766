//! The contractions of `tests/data/vectors.json`, which `tests/data/README.md` describes, by the plain call and by tile
//! calls.

use crate::common::case::{Case, Tensor};
use crate::common::groups::{Group, Groups};
use crate::common::json::Json;
use crate::common::request::Request;
use crate::common::tile_call::{check_ask, check_run};
use crate::common::{call, cutting};
use nezgrak::{OutputIndex, TileSizes};

const VECTORS: &str = include_str!("../data/vectors.json");

fn tensor(vector: &Json, name: &str, count: &str, word: fn(u32) -> u32) -> Tensor {
    let [letters, extents, strides, base] = vector.field(name).list() else {
        panic!("{name} is not letters, extents, strides and base");
    };
    let words: Vec<u32> = (0..vector.field(count).number()).map(word).collect();
    Tensor::new(letters.text(), &extents.numbers(), &strides.numbers(), base.number(), &words)
}

fn case(vector: &Json) -> Case {
    Case {
        a: tensor(vector, "A", "nA", |n| n + 1),
        b: tensor(vector, "B", "nB", |n| 2 * n + 1),
        c: None,
        d: tensor(vector, "D", "nD", |n| 100 * n + 7),
        alpha: vector.field("alpha").number(),
        beta: vector.field("beta").number(),
    }
}

/// The vectors whose name begins with the number of a document: how many there are, and that each gives its words.
fn run(document: &str, count: usize) {
    let all = Json::read(VECTORS);
    let vectors: Vec<_> = all.object().iter().filter(|(name, _)| name.starts_with(document)).collect();
    assert_eq!(vectors.len(), count, "vectors of document {document}");
    for (name, vector) in vectors {
        println!("{name}");
        let (case, words) = (case(vector), vector.field("D_words").numbers::<u32>());
        call::gives(&case, &words);
        cutting::gives(&case, &words);
    }
}

#[test]
fn there_are_41() {
    assert_eq!(Json::read(VECTORS).object().len(), 41);
    assert_eq!(41, 6 + 11 + 2 + 18 + 4); // those that the tests below run
}

#[test]
fn document_000() {
    run("000 ", 6);
}

#[test]
fn document_001() {
    run("001 ", 11);
}

#[test]
fn document_002() {
    run("002 ", 2);
}

#[test]
fn document_003() {
    run("003 ", 18);
}

#[test]
fn document_004() {
    run("004 ", 4);
}

/// The file's digests of D's words agree with the words, so that a slip in one of them is seen.
#[test]
fn digests_agree() {
    for (name, vector) in Json::read(VECTORS).object() {
        let words: Vec<u64> = vector.field("D_words").numbers();
        let first: Vec<u64> = vector.field("D_first8").numbers();
        assert_eq!(words[..words.len().min(8)], first, "{name}");
        assert_eq!(words.last(), Some(&vector.field("D_last").number()), "{name}");
        assert_eq!(words.iter().sum::<u64>() % (1 << 32), vector.field("D_sum_mod").number(), "{name}");
    }
}

/// The model has the groups of the file. With tiles of one count each, the engine shows the sizes: it accepts every
/// output index below them and no other, and the total is their product.
#[test]
fn groups_and_sizes() {
    for (name, vector) in Json::read(VECTORS).object() {
        let case = case(vector);
        let groups = Groups::of(&case);
        let of_file = |group: &str| vector.field("groups").field(group).text().to_string();
        let letters = |group: &Group| -> String { group.0.iter().map(|(letter, _)| char::from(*letter)).collect() };
        for (group, found) in
            [("batch", &groups.batch), ("row", &groups.row), ("col", &groups.column), ("depth", &groups.depth)]
        {
            assert_eq!(letters(found), of_file(group), "{group} of {name}");
        }
        let sizes = ["batch", "row", "col", "depth"].map(|group| vector.field("sizes").field(group).number());
        shows_sizes(case, sizes);
    }
}

fn shows_sizes(case: Case, [batch, row, column, depth]: [u64; 4]) {
    let (done, total) = (0, batch * row * column * depth);
    let (sizes, index) = (TileSizes { rows: 1, cols: 1, depth: 1 }, OutputIndex::new(batch - 1, row - 1, column - 1));
    let r = Request { case, sizes, done, budget: 0, work: vec![0; 2], index };
    let state_at = |index| check_ask(&Request { index, ..r.clone() });
    assert_eq!(state_at(index), Ok(0));
    assert_eq!(state_at(OutputIndex { batch, ..index }), Err(13));
    assert_eq!(state_at(OutputIndex { row, ..index }), Err(13));
    assert_eq!(state_at(OutputIndex { column, ..index }), Err(13));
    let answer_at = |done| {
        let ran = check_run(&Request { done, ..r.clone() });
        (ran.answer, ran.complete)
    };
    assert_eq!([total - 1, total, total + 1].map(answer_at), [(0, 0), (0, 1), (12, 0)]);
}
