//! The plain engine on walks of many sorts, by the archive now and by the one before where there is one.

use crate::clock::{best_of, Pace};
use crate::contraction::Contraction;
use crate::engines::{self, Engine, Lent};
use crate::paged::Paged;
use crate::shapes;
use std::time::Duration;

/// So many terms take as long as a turn should.
const TERMS: u64 = 200_000;
const TURNS: u32 = 60;

pub struct Walked {
    pub name: String,
    pub pace: Pace,
    pub before: Option<Duration>,
    pub now: Duration,
}

/// A contraction, and whether it starts from a tensor C that has D's layout.
struct Walk {
    name: String,
    contraction: Contraction,
    with_c: bool,
}

pub fn all() -> Vec<Walked> {
    let archives: Vec<Engine> = [engines::now()].into_iter().chain(engines::before()).collect();
    walks().iter().map(|walk| measure(walk, &archives)).collect()
}

fn walks() -> Vec<Walk> {
    let plain = |name: &str, contraction| Walk { name: name.to_string(), contraction, with_c: false };
    let with_c = |name: &str, contraction| Walk { name: format!("{name}, from C"), contraction, with_c: true };
    let mut walks = vec![
        plain("512×512×512", shapes::matrices(512, 512, 512)),
        with_c("512×512×512", shapes::matrices(512, 512, 512)),
        plain("512×512×512, row after row", shapes::row_major(512)),
        plain("512×512×256, abk,kcd->abcd permuted", shapes::permuted()),
        plain("512×512×256, permuted, first label of stride 1", shapes::permuted_in_a_row()),
        plain("64×64×64, a batch of 64", shapes::batched()),
        plain("64×64×64, a batch of 64, interleaved", shapes::interleaved()),
        plain("512×1×512, matrix times vector", shapes::matrices(512, 1, 512)),
        plain("1×512×512, vector times matrix", shapes::matrices(1, 512, 512)),
        plain("512×512×1, outer product", shapes::matrices(512, 512, 1)),
        plain("dot product of 1,000,000", shapes::dot()),
        plain("512×512 element by element", shapes::by_elements(512)),
        with_c("512×512 element by element", shapes::by_elements(512)),
        plain("512×512 times a scalar", shapes::by_scalar(512)),
        plain("scalars", shapes::scalars()),
        with_c("scalars", shapes::scalars()),
    ];
    for extent in [2, 3, 4, 8] {
        walks.push(plain(&format!("first label of the depth of {extent}"), shapes::short_depth(extent)));
        walks.push(plain(&format!("first label of the output of {extent}"), shapes::short_output(extent)));
    }
    walks
}

/// All take turns and run equally often, so that they leave the same words.
fn measure(walk: &Walk, archives: &[Engine]) -> Walked {
    let Walk { name, contraction, with_c } = walk;
    eprintln!("measuring the plain engine: {name}");
    let lent = Lent::of(contraction);
    let mut outputs: Vec<Paged> = archives.iter().map(|_| Paged::of(&contraction.d.words)).collect();
    let run = |engine: &Engine, d: &mut Paged| {
        if *with_c {
            engine.contract_with_c(&lent, &contraction.d.words, d.words_mut());
        } else {
            engine.contract(&lent, d.words_mut());
        }
    };
    let mut runs: Vec<_> = archives.iter().zip(&mut outputs).map(|(engine, d)| || run(engine, d)).collect();
    let pace = Pace { turns: TURNS, repeats: (TERMS / contraction.terms()).clamp(1, 1000) as u32 };
    let times = best_of(pace, &mut runs);
    drop(runs);
    assert!(outputs.iter().all(|d| d.words() == outputs[0].words()), "{name}: the archives leave different words");
    Walked { name: name.clone(), pace, before: times.get(1).copied(), now: times[0] }
}
