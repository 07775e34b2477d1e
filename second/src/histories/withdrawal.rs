//! A withdrawal, checked against the set and against the bytes that a lookup leaves.

use super::counters::{Counted, Counters};
use super::player::{must, Played, Player};
use super::set::Set;
use crate::answer::{BADKEY, DONE, NONE};
use crate::key::{parts, whole};
use crate::page;
use crate::tree::Tree;
use crate::without::taken_out;

impl Player {
    pub(super) fn withdraw(&mut self, key: u64, counters: &mut Counters) -> Played {
        let tells = self.walk_tells_of(key);
        let mut looked = self.store.clone();
        looked.lookup(key);
        let answer = self.store.withdraw(key);
        counters.answer(Counted::Withdraw, answer);
        let expected = match self.states.now.get(key) {
            _ if !whole(key) => BADKEY,
            Some(_) => DONE,
            None => NONE,
        };
        must(answer == expected, || {
            format!("withdrawal of {:?} answers {answer}", parts(key))
        })?;
        if answer == DONE {
            self.states.take(key);
            let c = looked.session.c;
            looked.session.total = looked.session.total.wrapping_sub(1);
            let good = taken_out(&looked.working, &self.store.working, key, c);
            must(good, || "a withdrawal left other bytes".to_string())?;
            looked.working.copy_from_slice(&self.store.working);
        }
        must(self.store == looked, || {
            "a withdrawal changed more than its leaf".to_string()
        })?;
        self.told(tells, answer, counters)
    }

    /// Counts what a mix has made of withdrawals.
    pub(super) fn count_states(&self, tree: &Tree, found: &Set, counters: &mut Counters) {
        let now = &self.states.now;
        let others = self.states.base.others(found);
        let middle = others.iter().any(|&(key, state)| state != now.get(key));
        counters.add_if(middle, "mixes with a state of the middle");
        let mut gone = self.states.touched().filter(|&key| now.get(key).is_none());
        let back = gone.any(|key| found.get(key).is_some());
        counters.add_if(back, "mixes with a withdrawn key back");
        let empty = tree.nodes.iter().any(|node| page::count(&node.shown) == 0);
        counters.add_if(empty && tree.nodes.len() > 1, "mixes with an empty leaf");
    }
}
