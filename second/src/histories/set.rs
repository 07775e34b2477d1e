//! A set of entries, kept beside the store to hold its answers against.

use crate::page::LeafEntry;
use std::collections::BTreeMap;
use std::ops::RangeInclusive;

/// Entries kept beside the store.
#[derive(Clone, PartialEq, Eq, Debug, Default)]
pub struct Set(BTreeMap<u64, u32>);

impl Set {
    pub fn new() -> Set {
        Set::default()
    }

    pub fn of(entries: impl Iterator<Item = LeafEntry>) -> Set {
        Set(entries.map(|entry| (entry.key, entry.record)).collect())
    }

    /// Adds an entry; false if the key was there.
    pub fn add(&mut self, key: u64, record: u32) -> bool {
        self.0.insert(key, record).is_none()
    }

    /// Takes an entry out; none if the key wasn't there.
    pub fn take(&mut self, key: u64) -> Option<u32> {
        self.0.remove(&key)
    }

    pub fn get(&self, key: u64) -> Option<u32> {
        self.0.get(&key).copied()
    }

    pub fn range(
        &self,
        keys: RangeInclusive<u64>,
    ) -> impl DoubleEndedIterator<Item = (u64, u32)> + '_ {
        self.0.range(keys).map(|(key, record)| (*key, *record))
    }

    pub fn keys(&self) -> impl Iterator<Item = u64> + '_ {
        self.0.keys().copied()
    }

    pub fn len(&self) -> usize {
        self.0.len()
    }

    pub fn is_empty(&self) -> bool {
        self.0.is_empty()
    }

    /// Whether entries read off in key order are exactly these.
    pub fn same(&self, entries: impl Iterator<Item = LeafEntry>) -> bool {
        let own = self
            .0
            .iter()
            .map(|(&key, &record)| LeafEntry { key, record });
        own.eq(entries)
    }

    /// The keys at which another set differs, with what they are there.
    pub fn others(&self, other: &Set) -> Vec<(u64, Option<u32>)> {
        let mut own = self.0.iter().peekable();
        let mut others = Vec::new();
        for (&key, &record) in &other.0 {
            while let Some((&gone, _)) = own.next_if(|(&own, _)| own < key) {
                others.push((gone, None));
            }
            let same = own.next_if(|(&own, _)| own == key);
            if same.is_none_or(|(_, &own)| own != record) {
                others.push((key, Some(record)));
            }
        }
        others.extend(own.map(|(&gone, _)| (gone, None)));
        others
    }
}
