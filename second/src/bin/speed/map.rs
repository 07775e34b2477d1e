//! The standard library's map: nothing is kept.

use super::subject::Subject;
use second::key::key;
use std::collections::BTreeMap;

pub struct Map(BTreeMap<u64, u32>);

impl Map {
    pub fn new() -> Map {
        Map(BTreeMap::new())
    }
}

impl Subject for Map {
    fn name(&self) -> &'static str {
        "BTreeMap"
    }

    fn clear(&mut self) {
        self.0.clear();
    }

    fn fill(&mut self, keys: &[u64], records: &[u32]) {
        for (key, record) in keys.iter().zip(records) {
            self.put(*key, *record);
        }
    }

    fn lookup(&mut self, key: u64) -> Option<u32> {
        self.0.get(&key).copied()
    }

    fn newest(&mut self, model: u16, serial: u32) -> Option<u32> {
        let issues = key(model, serial, 1)..=key(model, serial, u16::MAX);
        self.0.range(issues).next_back().map(|(_, record)| *record)
    }

    fn list(&mut self) -> usize {
        let mut lists = (
            Vec::with_capacity(self.0.len()),
            Vec::with_capacity(self.0.len()),
        );
        for (key, record) in &self.0 {
            lists.0.push(*key);
            lists.1.push(*record);
        }
        std::hint::black_box(&lists).0.len()
    }

    fn put(&mut self, key: u64, record: u32) {
        self.0.insert(key, record);
    }

    fn sync(&mut self) {}
}
