//! Crashes: a mix of stable and working pages is opened and held against demand 3.

use super::call::{numbers, set, Mix};
use super::counters::{Counted, Counters};
use super::player::{Player, Watch};
use super::restart::Opened;
use super::set::Set;
use super::states::States;
use crate::answer::{DONE, NONE, SPENT};
use crate::field::get32;
use crate::invariant;
use crate::key::whole;
use crate::layout::{zero, LAST_NUMBER, PAGE, PAGES_MOST};
use crate::page::PageSet;
use crate::store::Store;
use crate::tree::Tree;
use crate::{crash, number_ahead};

/// With no more differing pages than this, every mix is tried.
pub(super) const FEW: usize = 6;
/// Of a larger set, about this many keys are looked up in a mix on copies.
const SAMPLE: usize = 50;

/// The pages in which two tables differ.
pub(super) fn differing(one: &[u8], other: &[u8]) -> PageSet {
    let pages = one.chunks(PAGE).zip(other.chunks(PAGE));
    let differ = pages.enumerate().filter(|(_, (one, other))| one != other);
    set(differ.map(|(number, _)| number))
}

/// Looks a key up: the answer must be that of the set.
fn look_at(store: &mut Store, found: &Set, key: u64) -> Result<(), String> {
    let expected = found.get(key).map_or((NONE, 0), |record| (DONE, record));
    if whole(key) && store.lookup(key) != expected {
        return Err(format!("after the opening, lookup of key {key} is wrong"));
    }
    Ok(())
}

/// Looks keys up in this order, and here and there a neighbour.
fn look(store: &mut Store, found: &Set, keys: impl Iterator<Item = u64>) -> Result<(), String> {
    let neighbours = [1, 1 << 16, 1 << 48, 2];
    for (index, key) in keys.enumerate() {
        look_at(store, found, key)?;
        if index % neighbours.len() == 0 {
            let other = neighbours[index / neighbours.len() % neighbours.len()];
            look_at(store, found, key ^ other)?;
        }
    }
    Ok(())
}

impl Player {
    /// The working table that a crash finds, and the pages in which it differs from stable.
    fn before_crash(&self, inside_sync: bool) -> (Store, PageSet) {
        let mut copy = self.store.clone();
        if inside_sync && copy.session.c <= LAST_NUMBER {
            number_ahead(&mut copy.working, copy.session.c);
        }
        let differ = differing(&copy.working, &copy.stable);
        (copy, differ)
    }

    /// Pages that differ between working and stable.
    pub fn differing(&self) -> PageSet {
        differing(&self.store.working, &self.store.stable)
    }

    /// Opens a mix; none if the counter is spent.
    fn open_mix(&self, mix: Mix, counters: &mut Counters) -> Result<Option<(Store, Set)>, String> {
        let (mut store, differ) = self.before_crash(mix.inside_sync);
        let mut written = [false; PAGES_MOST];
        numbers(mix.pages).for_each(|page| written[page] = true);
        crash(&store.working, &mut store.stable, &written);
        let spent = get32(&store.stable, zero::NUMBER) > LAST_NUMBER;
        let answer = store.open();
        counters.answer(Counted::Open, answer);
        if answer != if spent { SPENT } else { DONE } {
            return Err(format!("the opening after a crash answers {answer}"));
        }
        if spent {
            counters.add("mixes with the counter spent");
            return Ok(None);
        }
        let tree =
            Tree::good(&store.working, store.session.n).ok_or("the opened tree is damaged")?;
        let found = Set::of(tree.entries());
        if store.session.total as usize != found.len() {
            return Err("the opening counts another total".to_string());
        }
        self.between(&found, mix.pages, differ)?;
        if self.watch == Watch::Invariants {
            invariant::check(&store, &|key, state| found.get(key) == state)?;
            self.restarts(mix, &store, &found, counters)?;
        }
        self.count_pages(mix, differ, counters);
        self.count_mix(&tree, &found, counters);
        self.count_states(&tree, &found, counters);
        Ok(Some((store, found)))
    }

    /// Demand 3: each key is as it was at the last sync or opening, or shows another state that it
    /// has had since; and both extremes are exact.
    fn between(&self, found: &Set, pages: PageSet, differ: PageSet) -> Result<(), String> {
        let States { base, now, .. } = &self.states;
        let others = base.others(found);
        let never = others
            .iter()
            .find(|(key, state)| !self.states.had(*key, *state));
        match never {
            Some((_, None)) => return Err("an entry of the last sync or opening is gone".into()),
            Some(_) => return Err("an entry is there that wasn't inserted".into()),
            None => {}
        }
        if pages & differ == 0 && found != base {
            return Err("no page was written, but the set has changed".to_string());
        }
        if differ & !pages == 0 && found != now {
            return Err("all pages were written, but the set isn't that of the crash".to_string());
        }
        Ok(())
    }

    /// A crash on copies.
    pub(super) fn try_mix(&mut self, mix: Mix, counters: &mut Counters) -> Result<(), String> {
        counters.add("mixes opened on copies");
        let Some((mut store, found)) = self.open_mix(mix, counters)? else {
            return Ok(());
        };
        let keys = self.states.now.keys().chain(self.states.touched());
        let step = self.states.now.len() / SAMPLE + 1;
        look(&mut store, &found, keys.step_by(step))
    }

    /// Every mix on copies, if few pages differ.
    pub(super) fn all_mixes(
        &mut self,
        inside_sync: bool,
        counters: &mut Counters,
    ) -> Result<(), String> {
        let (_, differ) = self.before_crash(inside_sync);
        let pages: Vec<usize> = numbers(differ).collect();
        if pages.len() > FEW {
            return Ok(());
        }
        counters.add("states with all mixes opened");
        let quiet = differ != 0 && self.quiet(inside_sync).is_some();
        counters.add_if(quiet, "quiet stretches with all restarts");
        for chosen in 0..1u32 << pages.len() {
            let written = pages
                .iter()
                .enumerate()
                .filter(|(bit, _)| chosen >> bit & 1 == 1);
            let pages = set(written.map(|(_, page)| *page));
            self.try_mix(Mix { pages, inside_sync }, counters)?;
        }
        Ok(())
    }

    /// A crash: the history goes on in the store that was opened. Two orders of lookups on
    /// copies must agree with what the opening shows.
    pub(super) fn crash(
        &mut self,
        mix: Mix,
        plain: bool,
        counters: &mut Counters,
    ) -> Result<(), String> {
        let (_, differ) = self.before_crash(mix.inside_sync);
        counters.add_if(plain, "openings without a crash");
        if !plain {
            self.count_crash(mix, differ, counters);
        }
        let Some((store, found)) = self.open_mix(mix, counters)? else {
            self.over = true;
            return Ok(());
        };
        let keys = self.states.now.keys().chain(self.states.touched());
        let keys: Vec<u64> = keys.collect();
        let backwards = keys.iter().rev().step_by(keys.len() / SAMPLE + 1);
        look(&mut store.clone(), &found, keys.iter().copied())?;
        look(&mut store.clone(), &found, backwards.copied())?;
        self.opened = Some(Opened::of(&store, &found));
        self.store = store;
        self.states = States::of(found);
        self.tree = None;
        self.crashed = true;
        Ok(())
    }
}
