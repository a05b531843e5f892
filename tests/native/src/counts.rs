//! What came in a test, counted by name.

use std::collections::BTreeMap;

#[derive(Default)]
pub struct Counts(BTreeMap<&'static str, usize>);

impl Counts {
    pub fn add(&mut self, name: &'static str) {
        *self.0.entry(name).or_default() += 1;
    }

    /// Prints what came. Fails where one of these came less often.
    pub fn at_least(&self, least: usize, names: &[&'static str]) {
        self.reach(&names.iter().map(|&name| (name, least)).collect::<Vec<_>>());
    }

    /// The same, with a floor for each.
    pub fn reach(&self, floors: &[(&'static str, usize)]) {
        println!("{:?}", self.0);
        for (name, least) in floors {
            let came = self.0.get(name).copied().unwrap_or(0);
            assert!(came >= *least, "'{name}' came {came} times only");
        }
    }
}
