//! Damaged job files: each byte, each length, each pair of records, and damage at random.

use super::random;
use crate::common::flaws::Records;
use crate::common::rng::Rng;

/// What was done to a file.
#[derive(Clone, Copy)]
pub enum Damage {
    None,
    /// The byte at this place.
    Changed(usize),
    Cut,
    Inserted,
    Deleted,
    RecordRepeated,
    RecordLeftOut,
    RecordsSwapped,
    Random,
}

impl Damage {
    pub const NAMES: [&'static str; 9] = [
        "left as they were",
        "one byte changed",
        "cut short",
        "a byte inserted",
        "a byte deleted",
        "a record repeated",
        "a record left out",
        "two records swapped",
        "damaged at random",
    ];

    pub fn name(self) -> &'static str {
        let number = match self {
            Damage::None => 0,
            Damage::Changed(_) => 1,
            Damage::Cut => 2,
            Damage::Inserted => 3,
            Damage::Deleted => 4,
            Damage::RecordRepeated => 5,
            Damage::RecordLeftOut => 6,
            Damage::RecordsSwapped => 7,
            Damage::Random => 8,
        };
        Self::NAMES[number]
    }
}

pub struct Mutant {
    /// The number of the file before the damage.
    pub base: usize,
    pub damage: Damage,
    pub bytes: Vec<u8>,
}

pub fn undamaged(base: usize, records: &Records) -> Mutant {
    Mutant { base, damage: Damage::None, bytes: records.concat() }
}

/// Every damage of a file that is not chosen at random.
pub fn damaged(base: usize, records: &Records, rng: &mut Rng) -> Vec<Mutant> {
    let file = records.concat();
    let mutant = |(damage, bytes)| Mutant { base, damage, bytes };
    let cuts = (0..file.len()).map(|length| (Damage::Cut, file[..length].to_vec()));
    let bytes: Vec<_> = (0..file.len()).flat_map(|place| at_byte(&file, place, rng)).collect();
    cuts.chain(bytes).chain(of_records(records)).map(mutant).collect()
}

/// The file with this byte changed to several values, with a byte before it, and without it.
fn at_byte(file: &[u8], place: usize, rng: &mut Rng) -> Vec<(Damage, Vec<u8>)> {
    let changed = |value: u8| {
        let mut bytes = file.to_vec();
        bytes[place] = value;
        (Damage::Changed(place), bytes)
    };
    let around = |middle: &[u8], rest: &[u8]| [&file[..place], middle, rest].concat();
    let mut damaged: Vec<_> = values(file[place], rng).into_iter().map(changed).collect();
    damaged.push((Damage::Inserted, around(&[rng.word() as u8], &file[place..])));
    damaged.push((Damage::Deleted, around(&[], &file[place + 1..])));
    damaged
}

/// 0, 255, the next values up and down, each bit turned, and one at random; each once and none as it was.
fn values(byte: u8, rng: &mut Rng) -> Vec<u8> {
    let bits = (0..8).map(|bit| byte ^ 1 << bit);
    let others = [0, 255, byte.wrapping_add(1), byte.wrapping_sub(1), rng.word() as u8];
    let mut values: Vec<u8> = bits.chain(others).filter(|value| *value != byte).collect();
    values.sort_unstable();
    values.dedup();
    values
}

/// The file with each record repeated, with each left out, and with each two swapped.
fn of_records(records: &Records) -> Vec<(Damage, Vec<u8>)> {
    let with = |damage: Damage, edit: &dyn Fn(&mut Records)| {
        let mut damaged = records.clone();
        edit(&mut damaged);
        (damage, damaged.concat())
    };
    let pairs = (0..records.len()).flat_map(|first| (0..first).map(move |second| (first, second)));
    let repeated = |n: usize| with(Damage::RecordRepeated, &|damaged| damaged.insert(n, records[n].clone()));
    let left_out = |n: usize| with(Damage::RecordLeftOut, &|damaged| drop(damaged.remove(n)));
    let swapped = |(first, second)| with(Damage::RecordsSwapped, &|damaged| damaged.swap(first, second));
    let each = (0..records.len()).flat_map(|n| [repeated(n), left_out(n)]);
    each.chain(pairs.map(swapped)).collect()
}

/// A file with several edits at random.
pub fn damaged_at_random(base: usize, records: &Records, rng: &mut Rng) -> Mutant {
    let mut bytes = records.concat();
    (0..1 + rng.below(5)).for_each(|_| random::edit(&mut bytes, rng));
    Mutant { base, damage: Damage::Random, bytes }
}
