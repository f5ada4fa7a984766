//! Random tensors without entries. Of their strides, base and slice only question 5 asks anything.

use super::case::Tensor;
use super::rng::Rng;

const LIMIT: i32 = 16_777_216;

/// For a tensor that has its letters and extents, of which one is 0.
pub fn strides_base_and_words(rng: &mut Rng, t: &mut Tensor) {
    strides(rng, t);
    let packed: u32 = t.extents.iter().map(|extent| (*extent).max(1)).product();
    let length = rng.pick(&[0, 0, 1, packed / 2, packed, packed + 3]);
    t.words = rng.words(length as usize);
    t.base = rng.pick(&[0, 0, length / 2, length, length + 1, LIMIT as u32]);
}

/// Packed as if 0 were 1; packed as the extents are, so that after the 0 every stride is 0 and labels fold; small ones,
/// which let entries of a D share words; and ones up to the limit.
fn strides(rng: &mut Rng, t: &mut Tensor) {
    let (way, mut packed) = (rng.below(5), 1);
    for (stride, extent) in t.strides.iter_mut().zip(&t.extents) {
        *stride = match way {
            0..=2 => packed,
            3 => rng.between(-2, 2),
            _ => rng.pick(&[0, 1, -7, LIMIT, -LIMIT]),
        };
        packed *= if way == 0 { (*extent).max(1) as i32 } else { *extent as i32 };
    }
}
