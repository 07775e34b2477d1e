//! Exchange files of a delivery and of all that the store holds.

use super::counters::Counters;
use super::player::{must, Played, Player};
use crate::answer::DONE;
use crate::batch::Item;
use crate::file::file_of_set;
use crate::key::whole;
use crate::store::Store;
use std::collections::BTreeMap;

impl Player {
    /// The certificates of a delivery as a file, on a copy: it comes to a batch of them in key order.
    pub(super) fn deliver_file(&self, asked: &[(u64, u32)]) -> Played {
        let set = asked.iter().copied().filter(|&(key, _)| whole(key));
        let set: BTreeMap<u64, u32> = set.collect();
        let (mut batch, mut file) = (self.store.clone(), self.store.clone());
        let mut items: Vec<Item> = set.iter().map(|(&k, &r)| Item::new(k, r)).collect();
        batch.batch(&mut items);
        let done = items.iter().filter(|item| item.answer == DONE).count();
        let read = file.read_file(&file_of_set(&set)) == (DONE, done as u32, 0);
        let alike = read && file == batch && file.report == batch.report;
        must(alike, || "a file differs from a batch".to_string())
    }

    /// What the store holds as a file: a fresh store that takes all of it shows the same.
    pub(super) fn carry(&self, counters: &mut Counters) -> Played {
        let held = shown(&mut self.store.clone(), self.states.now.len());
        let mut other = Store::fresh(self.store.session.n.into());
        let (answer, done, _) = other.read_file(&file_of_set(&held));
        must(answer == DONE, || "a store's file is refused".to_string())?;
        if done as usize != held.len() {
            counters.add("files carried over in part");
            return Ok(());
        }
        counters.add("files carried over whole");
        let same = shown(&mut other, held.len() + 1) == held;
        must(same, || "a file carries over something else".to_string())
    }
}

/// A listing from key 0 with room for so many.
fn shown(store: &mut Store, room: usize) -> BTreeMap<u64, u32> {
    let (mut keys, mut records) = (vec![0; room], vec![0; room]);
    let (_, count) = store.list(0, &mut keys, &mut records);
    keys.into_iter().zip(records).take(count).collect()
}
