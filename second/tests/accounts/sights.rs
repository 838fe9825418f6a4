//! Counts what a storm has come through, so that none passes for want of weather.

use std::collections::BTreeMap;

#[derive(Default)]
pub struct Sights(BTreeMap<&'static str, u32>);

impl Sights {
    pub fn see(&mut self, name: &'static str) {
        *self.0.entry(name).or_default() += 1;
    }

    pub fn see_if(&mut self, seen: bool, name: &'static str) {
        if seen {
            self.see(name);
        }
    }

    pub fn assert_seen(&self, names: &[&str]) {
        for name in names {
            let count = self.0.get(name).copied().unwrap_or(0);
            assert!(count > 0, "never seen: {name}; seen: {:?}", self.0);
        }
    }
}
