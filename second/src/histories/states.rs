//! The states that keys have had since the last successful sync or opening.

use super::set::Set;
use std::collections::BTreeMap;

/// A key's record, or none if the key isn't there.
pub type State = Option<u32>;

/// The set at the last sync or opening, the set now, and what each key has been between them.
#[derive(Clone, Default)]
pub struct States {
    pub base: Set,
    pub now: Set,
    /// Keys inserted or withdrawn since, with their states in order, the first that at the base.
    since: BTreeMap<u64, Vec<State>>,
}

impl States {
    /// After an opening that shows these.
    pub fn of(found: Set) -> States {
        States {
            base: found.clone(),
            now: found,
            since: BTreeMap::new(),
        }
    }

    /// After a sync.
    pub fn settle(&mut self) {
        self.base = self.now.clone();
        self.since.clear();
    }

    /// An insert is done; false if the key was there.
    pub fn put(&mut self, key: u64, record: u32) -> bool {
        self.changed(key, None, Some(record));
        self.now.add(key, record)
    }

    /// A withdrawal is done; false if the key wasn't there.
    pub fn take(&mut self, key: u64) -> bool {
        let before = self.now.take(key);
        self.changed(key, before, None);
        before.is_some()
    }

    fn changed(&mut self, key: u64, before: State, after: State) {
        let states = self.since.entry(key).or_insert_with(|| vec![before]);
        states.push(after);
    }

    /// Whether the key has had this state since then.
    pub fn had(&self, key: u64, state: State) -> bool {
        match self.since.get(&key) {
            Some(states) => states.contains(&state),
            None => self.base.get(key) == state,
        }
    }

    /// Keys inserted or withdrawn since.
    pub fn touched(&self) -> impl Iterator<Item = u64> + '_ {
        self.since.keys().copied()
    }
}
