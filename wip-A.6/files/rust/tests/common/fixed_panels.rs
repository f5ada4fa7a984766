//! The model of tile calls in fixed point: what the count of tiles done says of each word and of each sum. No tile is ever
//! run here.

use super::case::Case;
use super::fixed::{signed_entry, word_of};
use super::fixed_questions::{first_no_of_fixed_tiles, without_c};
use super::fixed_request::{FixedRan, FixedRequest};
use super::groups::Cut;
use super::panels::Model;
use nezgrak::{OutputIndex, TileSizes};

/// An output index: where its word and its sum are, and what each panel adds, with the number of the tile that brings it.
struct Output {
    place: usize,
    panels: Vec<(u64, i128)>,
}

/// A contraction that passes questions 1 to 10, 34 and 35.
pub struct FixedModel {
    pub model: Model,
    shift: u32,
    outputs: Vec<Output>,
}

/// D's words and the sums before a list of calls that began with a count.
pub struct Before {
    pub start: u64,
    pub words: Vec<u32>,
    pub sums: Vec<i64>,
}

impl Before {
    /// As a single call has them.
    pub fn of(r: &FixedRequest) -> Self {
        Self { start: r.request.done, words: r.request.case.d.words.clone(), sums: r.sums.clone() }
    }
}

impl FixedModel {
    pub fn of(case: &Case, shift: u32, sizes: TileSizes) -> Self {
        let model = Model::without_sums(&without_c(case), sizes);
        let outputs = model.indices().map(|index| output(case, &model, index)).collect();
        Self { model, shift, outputs }
    }

    /// D's words and the sums when t tiles are done. A sum starts from 0 where panel 0 is among those that ran, else from
    /// what was there, and adds modulo 2^64. A word changes with its last panel.
    pub fn after(&self, before: &Before, t: u64) -> (Vec<u32>, Vec<i64>) {
        let (mut words, mut sums) = (before.words.clone(), before.sums.clone());
        for Output { place, panels } in &self.outputs {
            let ran = |panel: usize| (before.start..t).contains(&panels[panel].0);
            let parts: i128 = (0..panels.len()).filter(|&panel| ran(panel)).map(|panel| panels[panel].1).sum();
            let from = if ran(0) { 0 } else { i128::from(before.sums[*place]) };
            sums[*place] = modulo_2_to_the_64(from + parts);
            if ran(panels.len() - 1) {
                words[*place] = word_of(before.words[*place], i128::from(sums[*place]), self.shift);
            }
        }
        (words, sums)
    }

    /// What a tile call has to answer and to leave that passes every question, in a list that began so.
    pub fn ran(&self, r: &FixedRequest, before: &Before) -> FixedRan {
        let mut ran = self.model.ran(&r.request, before.start, &before.words);
        let (words, sums) = self.after(before, ran.done);
        ran.words = words;
        FixedRan { ran, sums }
    }
}

fn output(case: &Case, model: &Model, index: OutputIndex) -> Output {
    let term = |k| {
        let values = model.groups.values_at_depth(index, k);
        signed_entry(&case.a, &values) * signed_entry(&case.b, &values)
    };
    let Cut { depth, tile_depth, panels, .. } = model.cut;
    let part = |panel| (panel * tile_depth..depth.min((panel + 1) * tile_depth)).map(term).sum();
    let panels = (0..panels).map(|panel| (model.number(index, panel), part(panel))).collect();
    Output { place: model.place(index), panels }
}

/// The number from -2^63 to 2^63 - 1 that differs by a multiple of 2^64.
fn modulo_2_to_the_64(whole: i128) -> i64 {
    let (around, half) = (1_i128 << 64, 1_i128 << 63);
    ((whole + half).rem_euclid(around) - half) as i64
}

/// What a single tile call has to answer and to leave.
pub fn outcome(r: &FixedRequest) -> FixedRan {
    match first_no_of_fixed_tiles(r) {
        0 => FixedModel::of(&r.request.case, r.shift, r.request.sizes).ran(r, &Before::of(r)),
        number => FixedRan::refused(r, number),
    }
}
