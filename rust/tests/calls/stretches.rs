//! Blocks of up to seven offsets in every split into stretches that labels can make: rows of A and columns of B, which are
//! packed, and rows and columns of D, to which is stored. One tile a call; after each, D and work are as the model says.

use crate::common::case::{Case, Tensor};
use crate::common::groups::Groups;
use crate::common::list::List;
use crate::common::rng::Rng;
use crate::common::stretches::stretches;
use nezgrak::TileSizes;
use std::collections::BTreeSet;

/// The most offsets of a block.
const MOST: u32 = 7;

/// Extent and stride of the labels of a group, the first one fastest.
type Labels = [(u32, i32); 3];

/// How long the stretches of a block are.
type Split = Vec<usize>;

#[test]
fn the_rule_for_stretches() {
    let cases: [(&[i64], &[usize]); 9] = [
        (&[], &[]),
        (&[5], &[1]),
        (&[5, -9], &[2]),
        (&[4, 4, 4], &[3]),
        (&[0, 1, 3], &[2, 1]),
        (&[0, 1, 3, 5, 7], &[2, 3]),
        (&[3, 2, 1, 9, 9, 9, 9], &[3, 4]),
        (&[0, 1, 5, 6, 10, 11], &[2, 2, 2]),
        (&[0, 7, 14, 15, 22, 29, 30], &[3, 3, 1]),
    ];
    for (offsets, lengths) in cases {
        assert_eq!(stretches(offsets), lengths, "the stretches of {offsets:?}");
    }
}

/// The splits of n offsets that the rule allows: every stretch but the last has at least two.
fn allowed(n: usize) -> Vec<Split> {
    let rest = |first: usize| allowed(n - first).into_iter().map(move |rest| [vec![first], rest].concat());
    [vec![n]].into_iter().chain((2..n).flat_map(rest)).collect()
}

/// Splits that the rule allows and no labels make. A block of six begins at a multiple of six or ends with its group. So
/// with a first label of extent 2 the first, third and fifth step are the same; with extent 3 the first two are, and the
/// last two; and with a longer one, or with labels that go on after it, all steps but one.
const NOT_BY_LABELS: [&[usize]; 2] = [&[2, 3, 1], &[3, 2, 1]];

/// Three labels with extents 1 to 3; a longer one before another; and one of 4 between two, for splits of seven that the
/// others don't have.
fn is_tried(extents: &[u32; 3]) -> bool {
    matches!(extents, [1..=3, 1..=3, 1..=3] | [4..=6, 2..=4, 1] | [2, 4, 2..=3])
}

/// The groups of these extents, with their strides in each of so many ways. With extent 1 any stride will do.
fn groups(ways: usize, strides: fn([u32; 3], usize) -> [i32; 3]) -> BTreeSet<Labels> {
    let group = |extents: [u32; 3], way: usize| {
        let strides = strides(extents, way);
        [0, 1, 2].map(|axis| (extents[axis], if extents[axis] == 1 { 7 } else { strides[axis] }))
    };
    let extents = (0..7 * 7 * 7).map(|n| [n % 7, n / 7 % 7, n / 49]).filter(is_tried);
    extents.flat_map(|extents| (0..ways).map(move |way| group(extents, way))).collect()
}

/// Groups in a tensor that is read: up, down and with stride 0, and such that a label goes on where the one before it ends
/// and such that it doesn't.
fn groups_read() -> BTreeSet<Labels> {
    const STRIDES: [i32; 6] = [0, 1, -1, 2, -2, 3];
    groups(6 * 6 * 6, |_, way| [way % 6, way / 6 % 6, way / 36].map(|n| STRIDES[n]))
}

/// Groups in D, whose strides question 9 accepts: in each order of their sizes, up and down, with gaps and without.
fn groups_stored() -> BTreeSet<Labels> {
    groups(6 * 8 * 4, strides_apart)
}

/// Each stride is larger than what the smaller ones reach; by a gap of one word more where the way says so.
fn strides_apart(extents: [u32; 3], way: usize) -> [i32; 3] {
    let order = [[0, 1, 2], [0, 2, 1], [1, 0, 2], [1, 2, 0], [2, 0, 1], [2, 1, 0]][way % 6];
    let is_set = |bit: usize| way / 6 >> bit & 1 == 1;
    let (mut strides, mut reach) = ([0; 3], 0);
    for (nth, axis) in order.into_iter().enumerate() {
        let size = reach + 1 + i32::from(nth > 0 && is_set(2 + nth));
        strides[axis] = if is_set(nth) { -size } else { size };
        reach += (extents[axis] as i32 - 1) * size;
    }
    strides
}

/// A letter, its extent and its stride.
type Axis = (u8, u32, i32);

fn tensor(rng: &mut Rng, axes: &[Axis]) -> Tensor {
    let mut t = Tensor::new("", &[], &[], 0, &[]);
    axes.iter().for_each(|(letter, extent, stride)| t.push(*letter, *extent, *stride));
    let reach = |sign: i32| axes.iter().map(|(_, extent, stride)| (*extent as i32 - 1) * (stride * sign).max(0)).sum();
    let (below, above): (i32, i32) = (reach(-1), reach(1));
    t.base = below as u32;
    t.words = rng.words((below + above + 1) as usize);
    t
}

/// One axis more, whose stride is larger than what the others reach.
fn beside(axes: &[Axis], letter: u8, extent: u32) -> Vec<Axis> {
    let reach: i32 = axes.iter().map(|(_, extent, stride)| (*extent as i32 - 1) * stride.abs()).sum();
    [axes, &[(letter, extent, reach + 1)]].concat()
}

/// Where the blocks are.
#[derive(Clone, Copy)]
enum Place {
    RowsOfA,
    ColumnsOfB,
    RowsOfD,
    ColumnsOfD,
}

impl Place {
    /// A contraction with this group in that place; in the other tensor that has them its labels go on one after the
    /// other. Where D's rows are tried there are five columns, since four at a time have a loop of their own.
    fn case(self, rng: &mut Rng, labels: &Labels) -> Case {
        let own: Vec<Axis> =
            (b'a'..).zip(labels).map(|(letter, (extent, stride))| (letter, *extent, *stride)).collect();
        let even = own.iter().fold(vec![], |axes, (letter, extent, _)| beside(&axes, *letter, *extent));
        let depth = [(b'k', 2, 1)];
        let [a, b, d] = match self {
            Self::RowsOfA => [beside(&own, b'k', 2), depth.to_vec(), even],
            Self::ColumnsOfB => [depth.to_vec(), beside(&own, b'k', 2), even],
            Self::RowsOfD => [beside(&even, b'k', 2), beside(&depth, b'j', 5), beside(&own, b'j', 5)],
            Self::ColumnsOfD => [beside(&depth, b'i', 6), beside(&even, b'k', 2), beside(&own, b'i', 6)],
        };
        let [a, b, d] = [a, b, d].map(|axes| tensor(rng, &axes));
        Case { a, b, c: None, d, alpha: rng.word(), beta: rng.word() }
    }

    fn sizes(self, width: u32) -> TileSizes {
        match self {
            Self::RowsOfA => TileSizes { rows: width, cols: 1, depth: 2 },
            Self::ColumnsOfB => TileSizes { rows: 1, cols: width, depth: 2 },
            Self::RowsOfD => TileSizes { rows: width, cols: 5, depth: 2 },
            Self::ColumnsOfD => TileSizes { rows: 6, cols: width, depth: 2 },
        }
    }

    /// How the blocks of this width are split.
    fn splits(self, case: &Case, width: u32) -> Vec<Split> {
        let Groups { row, column, .. } = Groups::of(case);
        let (t, group) = match self {
            Self::RowsOfA => (&case.a, row),
            Self::ColumnsOfB => (&case.b, column),
            Self::RowsOfD => (&case.d, row),
            Self::ColumnsOfD => (&case.d, column),
        };
        group.blocks(u64::from(width)).map(|counts| stretches(&group.places(t, counts))).collect()
    }

    /// Runs every tile of every width on each of the groups, which have to have every split.
    fn check(self, groups: BTreeSet<Labels>) {
        let (mut rng, mut met) = (Rng::new(0x57e7), BTreeSet::new());
        for labels in &groups {
            let case = self.case(&mut rng, labels);
            for width in 1..=MOST {
                let mut list = List::new(&case, self.sizes(width), 0);
                (0..list.left()).for_each(|_| list.step(1, &mut rng));
                met.extend(self.splits(&case, width));
            }
        }
        println!("{} groups, {} splits", groups.len(), met.len());
        let mut all: BTreeSet<Split> = (1..=MOST as usize).flat_map(allowed).collect();
        NOT_BY_LABELS.iter().for_each(|split| assert!(all.remove(*split)));
        assert_eq!(met, all, "the splits that were met, and those that there are");
    }
}

#[test]
fn rows_of_a() {
    Place::RowsOfA.check(groups_read());
}

#[test]
fn columns_of_b() {
    Place::ColumnsOfB.check(groups_read());
}

#[test]
fn rows_of_d() {
    Place::RowsOfD.check(groups_stored());
}

#[test]
fn columns_of_d() {
    Place::ColumnsOfD.check(groups_stored());
}
