//! Edits of a few bytes, at random.

use crate::common::rng::Rng;

/// Numbers that stand at a limit or beside one.
const NUMBERS: [u32; 12] = [0, 1, 2, 64, 65, 128, 4_096, 4_097, 65_536, 65_537, 16_777_217, u32::MAX];

pub fn edit(bytes: &mut Vec<u8>, rng: &mut Rng) {
    let some = (1 + rng.below(8)).min(bytes.len());
    let places = bytes.len() - some + 1;
    let (place, other) = (rng.below(places), rng.below(places));
    let fresh: Vec<u8> = (0..some).map(|_| rng.word() as u8).collect();
    match rng.below(8) {
        0 => bytes[place..place + some].copy_from_slice(&fresh),
        1 => bytes[place..place + some].fill(rng.pick(&[0, 255])),
        2 => bytes.copy_within(other..other + some, place),
        3 => bytes[place..place + some].reverse(),
        4 => drop(bytes.drain(place..place + some)),
        5 => drop(bytes.splice(place..place, fresh)),
        6 => bytes.extend(fresh),
        _ => set_number(bytes, rng),
    }
}

/// A number of four bytes, at any place.
fn set_number(bytes: &mut [u8], rng: &mut Rng) {
    if bytes.len() >= 4 {
        let place = rng.below(bytes.len() - 3);
        bytes[place..place + 4].copy_from_slice(&rng.pick(&NUMBERS).to_le_bytes());
    }
}
