//! How often each thing was met that a comparison has to meet.

use std::collections::BTreeMap;

#[derive(Default)]
pub struct Met(BTreeMap<String, u64>);

impl Met {
    pub fn count(&mut self, what: &str) {
        *self.0.entry(what.to_string()).or_default() += 1;
    }

    pub fn add(&mut self, other: &Met) {
        for (what, count) in &other.0 {
            *self.0.entry(what.clone()).or_default() += count;
        }
    }

    pub fn times(&self, what: &str) -> u64 {
        self.0.get(what).copied().unwrap_or(0)
    }

    pub fn missing(&self, wanted: &[impl AsRef<str>]) -> String {
        let missing = wanted.iter().map(AsRef::as_ref).filter(|what| self.times(what) == 0);
        missing.map(|what| format!("not reached: {what}\n")).collect()
    }

    pub fn table(&self, wanted: &[impl AsRef<str>]) -> String {
        let wanted = wanted.iter().map(AsRef::as_ref);
        wanted.map(|what| format!("{:>8}  {what}\n", self.times(what))).collect()
    }
}
