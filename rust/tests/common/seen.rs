//! How often each thing was seen, so that a test that tries nothing can't pass.

use std::collections::BTreeMap;

#[derive(Default)]
pub struct Seen(BTreeMap<String, usize>);

impl Seen {
    pub fn note(&mut self, name: &str, is_there: bool) {
        self.add(name, usize::from(is_there));
    }

    /// Seen so often more. With 0 the thing is known by its name.
    pub fn add(&mut self, name: &str, more: usize) {
        match self.0.get_mut(name) {
            Some(count) => *count += more,
            None => drop(self.0.insert(name.to_string(), more)),
        }
    }

    pub fn count(&self, name: &str) -> usize {
        self.0.get(name).copied().unwrap_or(0)
    }

    /// Every thing that is known, in the order of the names.
    pub fn counts(&self) -> impl Iterator<Item = (&str, usize)> {
        self.0.iter().map(|(name, count)| (name.as_str(), *count))
    }

    pub fn at_least(&self, name: &str, least: usize) {
        let count = self.count(name);
        println!("{count} of {name}");
        assert!(count >= least, "only {count} of {name}");
    }

    /// There are this many things, each seen so often.
    pub fn each_at_least(&self, names: usize, least: usize) {
        assert_eq!(self.0.len(), names, "{:?}", self.0.keys());
        self.0.keys().for_each(|name| self.at_least(name, least));
    }
}
