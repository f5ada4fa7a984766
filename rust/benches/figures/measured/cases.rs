//! The cases of different shapes.

use super::contest::Case;
use crate::clock::Pace;
use crate::contenders::nests;
use crate::shapes;

pub fn all() -> Vec<Case> {
    products().into_iter().chain(thin()).collect()
}

/// Those in which a word of A and a word of B are used many times.
fn products() -> Vec<Case> {
    vec![
        large_matrices(),
        larger_matrices(),
        Case::new("64×64×64", shapes::matrices(64, 64, 64), nests::matrices::<4, 16, 64, 64, 4>, pace(100, 20)),
        Case::new("64×64×128", shapes::matrices(64, 64, 128), nests::matrices::<4, 16, 64, 128, 4>, pace(100, 10)),
        permuted(),
        batched(),
        latency(),
        Case::new(
            "256×256×256, A reversed, D with gaps",
            shapes::reversed_into_gaps(),
            nests::reversed_into_gaps,
            pace(50, 1),
        ),
        Case::new("256×256×256, abk,kc->abc, scattered rows", shapes::scattered(), nests::scattered, pace(50, 1)),
    ]
}

/// Those in which a word of A or of B is used once.
fn thin() -> Vec<Case> {
    vec![
        beside_nest(
            0.45,
            Case::new(
                "512×1×512, matrix times vector",
                shapes::matrices(512, 1, 512),
                nests::matrices::<1, 512, 1, 512, 1>,
                pace(200, 5),
            ),
        ),
        Case::new("512×1×512, the same by rows of A", shapes::rows_times_vector(512), nests::lines_of_a, pace(200, 5)),
        beside_nest(
            0.45,
            Case::new("1×512×512, vector times matrix", shapes::matrices(1, 512, 512), nests::lines_of_b, pace(200, 5)),
        ),
        Case::new("1×512×512, the same by rows of B", shapes::vector_times_rows(512), nests::rows_of_b, pace(200, 5)),
        beside_nest(0.27, Case::new("512×512×1, outer product", shapes::outer(512), nests::outer, pace(100, 1))),
        Case::new("512×512×1, matrix times scalar", shapes::by_scalar(512), nests::by_scalar, pace(100, 1)),
        Case::new("1×1×1,000,000, dot product", shapes::dot(), nests::dot, pace(100, 1)),
        by_elements(),
    ]
}

/// Nine tenths of what the odometer's time is beside tiles of 0.3 µs.
fn by_elements() -> Case {
    Case {
        over_odometer: Some(0.0075),
        ..Case::new("1×1×1, a batch of 512×512, by elements", shapes::by_elements(512), nests::by_elements, pace(15, 1))
    }
}

fn pace(turns: u32, repeats: u32) -> Pace {
    Pace { turns, repeats }
}

/// The case with a ratio that is required beside its loop nest.
fn beside_nest(least: f64, case: Case) -> Case {
    Case { over_nest: Some(least), ..case }
}

fn large_matrices() -> Case {
    Case {
        over_odometer: Some(4.5),
        over_nest: Some(0.72),
        ..Case::new("512×512×512", shapes::matrices(512, 512, 512), nests::matrices::<32, 16, 512, 512, 4>, pace(25, 1))
    }
}

fn larger_matrices() -> Case {
    let contraction = shapes::matrices(1024, 1024, 1024);
    Case::new("1024×1024×1024", contraction, nests::matrices::<64, 16, 1024, 1024, 4>, pace(3, 1))
}

fn permuted() -> Case {
    Case {
        over_odometer: Some(3.0),
        ..Case::new("512×512×256, abk,kcd->abcd permuted", shapes::permuted(), nests::permuted, pace(30, 1))
    }
}

fn batched() -> Case {
    Case {
        over_odometer: Some(3.0),
        ..Case::new("64×64×64, a batch of 64", shapes::batched(), nests::batched, pace(50, 1))
    }
}

/// One call at a turn: the words are as the others left them in the caches.
fn latency() -> Case {
    let (contraction, nest) = (shapes::matrices(64, 128, 24), nests::matrices::<4, 16, 128, 24, 4>);
    Case { over_odometer: Some(3.0), ..Case::new("64×128×24, one call at a time", contraction, nest, pace(2000, 1)) }
}
