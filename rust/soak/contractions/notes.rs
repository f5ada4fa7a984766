//! What an accepted contraction has, and how the tiles of a list cut it.

use crate::common::case::{Case, Tensor};
use crate::common::groups::{Cut, Group, Groups};
use crate::common::notes::{note_c, note_factors, note_labels, note_strides};
use crate::common::notes_empty::note_empty;
use crate::common::seen::Seen;
use crate::common::stretches::{classes, CLASSES};

pub fn note_contraction(seen: &mut Seen, case: &Case) {
    note_factors(seen, case);
    note_labels(seen, case);
    note_strides(seen, case);
    note_empty(seen, case);
    seen.note("C", case.c.is_some());
    note_c(seen, case);
    for (name, t) in case.named() {
        seen.note(&format!("base above 0 in {name}"), t.base > 0);
    }
}

pub fn note_cut(seen: &mut Seen, case: &Case, cut: &Cut) {
    seen.note("several batch counts", cut.batch > 1);
    seen.note("several row blocks", cut.row_blocks > 1);
    seen.note("several column blocks", cut.column_blocks > 1);
    seen.note("several panels", cut.panels > 1);
    seen.note("last row block shorter", cut.row % cut.tile_rows != 0);
    seen.note("last column block shorter", cut.column % cut.tile_cols != 0);
    seen.note("last panel shorter", cut.depth % cut.tile_depth != 0);
    seen.note("one panel with no terms", cut.depth == 0 && cut.total() > 0);
    seen.note("several tiles, each with no terms", cut.depth == 0 && cut.total() > 1);
    seen.note("no tiles", cut.total() == 0);
    seen.note("full block of 64 rows", cut.tile_rows == 64 && cut.row >= 64);
    seen.note("full block of 64 columns", cut.tile_cols == 64 && cut.column >= 64);
    seen.note("full panel of depth 128", cut.tile_depth == 128 && cut.depth >= 128);
    if cut.total() > 0 {
        note_blocks(seen, case, cut);
    }
}

fn note_blocks(seen: &mut Seen, case: &Case, cut: &Cut) {
    let groups = Groups::of(case);
    let mut blocks = vec![
        ("rows of A", &case.a, &groups.row, cut.tile_rows),
        ("rows of D", &case.d, &groups.row, cut.tile_rows),
        ("columns of B", &case.b, &groups.column, cut.tile_cols),
        ("columns of D", &case.d, &groups.column, cut.tile_cols),
    ];
    if let Some(c) = &case.c {
        blocks.push(("rows of C", c, &groups.row, cut.tile_rows));
        blocks.push(("columns of C", c, &groups.column, cut.tile_cols));
    }
    for (name, t, group, width) in blocks {
        let steps = steps(t, group, width);
        seen.note(&format!("scattered block, {name}"), steps.contains(&None));
        seen.note(&format!("even block that counts up, {name}"), steps.iter().flatten().any(|step| *step > 0));
        seen.note(&format!("even block that counts down, {name}"), steps.iter().flatten().any(|step| *step < 0));
        let classes = classes(t, group, width);
        for class in CLASSES {
            seen.note(&format!("block of {class}, {name}"), classes.contains(&class));
        }
    }
}

/// The step of each block that has two counts or more, none where it is scattered.
fn steps(t: &Tensor, group: &Group, width: u64) -> Vec<Option<i64>> {
    let several = group.blocks(width).filter(|counts| counts.end - counts.start > 1);
    several.map(|counts| group.even_step(t, counts)).collect()
}
