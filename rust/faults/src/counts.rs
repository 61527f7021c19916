//! How often a check has seen what, by names.

use std::collections::BTreeMap;

#[derive(Clone, Debug, Default)]
pub struct Counts(BTreeMap<String, u64>);

impl Counts {
    /// Adds a count, or whether something was seen.
    pub fn add(&mut self, name: &str, count: impl Into<u64>) {
        match self.0.get_mut(name) {
            Some(sum) => *sum += count.into(),
            None => {
                self.0.insert(name.to_string(), count.into());
            }
        }
    }

    pub fn of(&self, name: &str) -> u64 {
        self.0.get(name).copied().unwrap_or(0)
    }

    /// The counts that are not 0 of names that end in a number, by that number.
    pub fn by_number(&self, name: &str) -> Vec<(usize, u64)> {
        let counts = (0..256).map(|number| (number, self.of(&format!("{name} {number}"))));
        counts.filter(|(_, count)| *count > 0).collect()
    }

    /// The names that were counted less often.
    pub fn seldom<'a>(&self, least: u64, names: &[&'a str]) -> Vec<&'a str> {
        names.iter().copied().filter(|name| self.of(name) < least).collect()
    }
}
