//! Sound files in both forms, without C and with it, and every flaw of each.

use super::flaws::{flaws, Flaw, Records};
use super::job::Job;
use super::refusing::{self, Form};

/// Files of one form: the requests that they are made of, and how many records they have.
pub struct Files {
    pub form: Form,
    pub records: usize,
}

pub const WITHOUT_C: Files = Files { form: refusing::WITHOUT_C, records: 7 };
pub const WITH_C: Files = Files { form: refusing::WITH_C, records: 9 };

impl Files {
    /// A sound file whose words are all words, and one whose words are all bytes but for those of C.
    pub fn sound(&self) -> [Records; 2] {
        let words = Job::of(&(self.form.sound)());
        let mut bytes = words.clone();
        (0..3).for_each(|which| bytes.write_as_bytes(which));
        [words.records(), bytes.records()]
    }

    /// Every flaw of such a file.
    pub fn flaws(&self) -> Vec<Flaw> {
        flaws(self.records == WITH_C.records)
    }

    /// The record that holds the layout of A 0, B 1, D 2 or C 3.
    pub fn layout_of(&self, which: usize) -> usize {
        [0, 2, self.records - 3, 4][which]
    }
}

/// The file of these records with these flaws, made one after the other.
pub fn flawed(mut records: Records, flaws: &[&Flaw]) -> Vec<u8> {
    flaws.iter().for_each(|flaw| flaw.make(&mut records));
    records.concat()
}
