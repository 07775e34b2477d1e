//! Plays the moves of a history and checks every answer against a set kept beside the store.

use super::call::{Call, Mix};
use super::counters::{Counted, Counters};
use super::observe::meets;
use super::restart::Opened;
use super::set::Set;
use super::states::States;
use super::Move;
use crate::answer::{BADKEY, DONE, FULL, LENGTH, NONE, PRESENT, SPENT, SYNCFIRST};
use crate::batch::Item;
use crate::field::put32;
use crate::invariant;
use crate::key::{issues, parts, whole};
use crate::layout::{zero, INNER_CAP, KIND_TOP, LAST_FINAL, LAST_NUMBER, LEVELS, PAGE};
use crate::page::{self, Header};
use crate::place::Place;
use crate::report::Report;
use crate::session::Session;
use crate::store::Store;
use crate::told_by;
use crate::tree::Tree;
use std::ops::RangeInclusive;

/// What is checked: demand 3 always, the invariants if asked for.
#[derive(Clone, Copy, PartialEq, Eq, Debug)]
pub enum Watch {
    Demand,
    Invariants,
}

pub struct Player {
    pub store: Store,
    /// The entries now, at the last successful sync or opening, and between.
    pub states: States,
    /// W's tree after the last checked move.
    pub tree: Option<Tree>,
    /// The last insert's answer.
    pub answer: u32,
    /// The counter is spent and the store closed.
    pub over: bool,
    pub(super) watch: Watch,
    /// What the last opening showed, until a sync.
    pub(super) opened: Option<Opened>,
    pub(super) crashed: bool,
}

pub(super) type Played = Result<(), String>;

pub(super) fn must(holds: bool, what: impl FnOnce() -> String) -> Played {
    if holds {
        Ok(())
    } else {
        Err(what())
    }
}

impl Player {
    pub fn new(n: usize, watch: Watch) -> Player {
        let store = Store::fresh(n);
        Player {
            opened: Some(Opened::of(&store, &Set::default())),
            store,
            states: States::default(),
            tree: None,
            answer: DONE,
            over: false,
            watch,
            crashed: false,
        }
    }

    pub fn play(&mut self, next: &Move, counters: &mut Counters) -> Played {
        let session = self.store.session;
        match next.call {
            Call::Insert { key, record } => self.insert(key, record, counters)?,
            Call::Withdraw { key } => self.withdraw(key, counters)?,
            Call::Batch { ref items } => {
                self.deliver_file(items)?;
                self.carry(counters)?;
                self.batch(items, counters)?;
            }
            Call::Lookup { key } => self.lookup(key, counters)?,
            Call::Newest { model, serial } => self.newest(model, serial, counters)?,
            Call::HasAny { model, serial } => self.has_any(model, serial, counters)?,
            Call::List {
                start,
                keys,
                records,
            } => self.list(start, keys, records, counters)?,
            Call::Sync => self.sync(counters)?,
            Call::SyncsUntil { left } => self.syncs_until(left, counters)?,
            Call::Open => self.crash(Mix::NONE, true, counters)?,
            Call::Crash(mix) => self.crash(mix, false, counters)?,
            Call::Mix(mix) => self.try_mix(mix, counters)?,
            Call::AllMixes { inside_sync } => self.all_mixes(inside_sync, counters)?,
            Call::Misfit { pages } => self.misfit(pages, counters)?,
        }
        must(!next.call.reads() || self.store.session == session, || {
            "a reading call changed the session".to_string()
        })?;
        if self.over {
            return Ok(());
        }
        let total = self.store.session.total as usize;
        must(total == self.states.now.len(), || {
            format!("the total is {total}, not {}", self.states.now.len())
        })?;
        if next.loads {
            self.tree = None;
            return Ok(());
        }
        self.check(counters)
    }

    /// Between two calls: the invariants hold, and W and S show the sets kept here.
    fn check(&mut self, counters: &mut Counters) -> Played {
        counters.add("states checked");
        let tree = if self.watch == Watch::Invariants {
            let had = |key, state| self.states.had(key, state);
            let view = invariant::check(&self.store, &had)?;
            must(self.states.base.same(view.s.tree.entries()), || {
                "S shows another set than at the last sync or opening".to_string()
            })?;
            view.w.tree
        } else {
            let n = self.store.session.n;
            Tree::good(&self.store.working, n).ok_or("W fails the opening tests")?
        };
        must(self.states.now.same(tree.entries()), || {
            "W shows another set than was put in".to_string()
        })?;
        self.total_is_listed()?;
        if let Some(before) = self.tree.take() {
            self.count_changes(&before, &tree, counters);
        }
        self.tree = Some(tree);
        Ok(())
    }

    /// The total is the length of a listing from key 0 with room enough.
    fn total_is_listed(&self) -> Played {
        let room = self.states.now.len() + 1;
        let (mut keys, mut records) = (vec![0; room], vec![0; room]);
        let (_, count) = self.store.clone().list(0, &mut keys, &mut records);
        must(count == self.store.session.total as usize, || {
            format!("{count} entries are listed, the total is another")
        })
    }

    pub fn root_kind(&self) -> u16 {
        let root = Place::root(&self.store.stable).child;
        page::kind(page::page(&self.store.stable, root))
    }

    pub(super) fn insert(&mut self, key: u64, record: u32, counters: &mut Counters) -> Played {
        let before = self.store.session;
        let tells = self.walk_tells_of(key);
        let answer = self.store.insert(key, record);
        self.answer = answer;
        counters.answer(Counted::Insert, answer);
        let good = match answer {
            DONE => whole(key) && self.states.put(key, record),
            BADKEY => !whole(key),
            PRESENT => self.states.now.get(key).is_some(),
            SYNCFIRST => self.syncfirst_is_cured(key, record, counters),
            FULL => self.full_is_right(key, record, counters),
            _ => false,
        };
        must(good, || {
            format!("insert of {:?} answers {answer}", parts(key))
        })?;
        must(answer == DONE || self.store.session == before, || {
            "a refused insert changed the session".to_string()
        })?;
        self.told(tells, answer, counters)
    }

    /// After a sync the same insert is done, or wants pages.
    fn syncfirst_is_cured(&self, key: u64, record: u32, counters: &mut Counters) -> bool {
        let mut copy = self.store.clone();
        let synced = copy.sync();
        let again = copy.insert(key, record);
        let root = Place::root(&self.store.working).child;
        let head = Header::of(page::page(&self.store.working, root));
        let top = head.kind == KIND_TOP && head.count == INNER_CAP;
        let touched = head.touched == self.store.session.c;
        counters.add_if(top && touched, "syncfirst at kind 3");
        whole(key)
            && self.states.now.get(key).is_none()
            && (synced == SPENT || again == DONE || again == FULL)
    }

    /// Too few pages are free, or a root of kind 3 is full.
    fn full_is_right(&self, key: u64, record: u32, counters: &mut Counters) -> bool {
        let root = Place::root(&self.store.working).child;
        let head = Header::of(page::page(&self.store.working, root));
        let top = head.kind == KIND_TOP && head.count == INNER_CAP;
        let free = self.store.session.free.iter().filter(|free| **free).count();
        let few = free < 2 * LEVELS + 1;
        counters.add_if(top && !few, "full, kind 3 root must split");
        let mut copy = self.store.clone();
        let helped = copy.sync() == DONE && copy.insert(key, record) == DONE;
        counters.add_if(helped, "full, helped by a sync");
        counters.add_if(!helped, "full, not helped by a sync");
        whole(key) && self.states.now.get(key).is_none() && (few || top)
    }

    fn lookup(&mut self, key: u64, counters: &mut Counters) -> Played {
        let tells = self.walk_tells_of(key);
        let (answer, record) = self.store.lookup(key);
        counters.answer(Counted::Lookup, answer);
        let expected = match self.states.now.get(key) {
            _ if !whole(key) => (BADKEY, 0),
            Some(record) => (DONE, record),
            None => (NONE, 0),
        };
        must((answer, record) == expected, || {
            format!(
                "lookup of {:?} answers {answer}, record {record}",
                parts(key)
            )
        })?;
        self.told(tells, answer, counters)
    }

    fn newest(&mut self, model: u16, serial: u32, counters: &mut Counters) -> Played {
        let asked = issues(model, serial, LAST_FINAL);
        let tells = self.meter_tells((model, serial), LAST_FINAL, usize::MAX);
        let (answer, issue, record) = self.store.newest(model, serial);
        counters.answer(Counted::Newest, answer);
        let expected = match self.states.now.range(asked.clone()).last() {
            _ if model == 0 || serial == 0 => (BADKEY, 0, 0),
            Some((key, record)) => (DONE, parts(key).2, record),
            None => (NONE, 0, 0),
        };
        must((answer, issue, record) == expected, || {
            format!("newest of {model} {serial} answers {answer}, issue {issue}, record {record}")
        })?;
        if answer != BADKEY {
            self.count_newest(model, serial, answer, counters);
        }
        must(answer == BADKEY || self.has_mended(&asked), || {
            format!("newest of {model} {serial} mends other pages than it asks for")
        })?;
        self.told(tells, answer, counters)
    }

    /// Whether of the places that were lost before exactly those that meet this range are mended.
    fn has_mended(&self, asked: &RangeInclusive<u64>) -> bool {
        let mut lost = self.tree.iter().flat_map(Tree::lost);
        lost.all(|node| {
            let child = page::page(&self.store.working, node.place.child);
            node.place.fits(child, self.store.session.n) == meets(&node.place, asked)
        })
    }

    fn has_any(&mut self, model: u16, serial: u32, counters: &mut Counters) -> Played {
        let tells = self.meter_tells((model, serial), u16::MAX, 1);
        let left = tells != self.meter_tells((model, serial), u16::MAX, usize::MAX);
        counters.add_if(left, "has-any that leaves a lost page of its meter");
        let (answer, any) = self.store.has_any(model, serial);
        counters.answer(Counted::HasAny, answer);
        let mut all = self.states.now.range(issues(model, serial, u16::MAX));
        let expected = match (model, serial) {
            (0, _) | (_, 0) => (BADKEY, false),
            _ => (DONE, all.next().is_some()),
        };
        if answer == DONE {
            counters.add(match any {
                true => "meters with a certificate",
                false => "meters without one",
            });
        }
        must((answer, any) == expected, || {
            format!("has any of {model} {serial} answers {answer}, {any}")
        })?;
        self.told(tells, answer, counters)
    }

    fn list(&mut self, start: u64, keys: usize, records: usize, counters: &mut Counters) -> Played {
        let room = keys.min(records);
        let tells = self.walk_tells(start..=u64::MAX, room);
        let (mut key_list, mut record_list) = (vec![u64::MAX; keys], vec![u32::MAX; records]);
        let (answer, count) = self.store.list(start, &mut key_list, &mut record_list);
        counters.answer(Counted::List, answer);
        let all: Vec<_> = self.states.now.range(start..=u64::MAX).take(room).collect();
        let filled = key_list.iter().copied().zip(record_list.iter().copied());
        let good = answer == DONE
            && count == all.len()
            && filled.take(count).eq(all.iter().copied())
            && key_list[count..].iter().all(|key| *key == u64::MAX)
            && record_list[count..]
                .iter()
                .all(|record| *record == u32::MAX);
        counters.add(match room {
            0 => "lists, empty",
            room if count == room => "lists cut short",
            _ => "lists to the end",
        });
        must(good, || {
            format!("list from {start} answers {answer}, {count} entries")
        })?;
        self.told(tells, answer, counters)?;
        self.file()
    }

    /// The exchange file tells of exactly what is there; writing it leaves what a full list leaves.
    fn file(&self) -> Played {
        let (mut writes, mut lists) = (self.store.clone(), self.store.clone());
        let mut out = vec![0; 12 + 18 * self.states.now.len()];
        let (answer, length) = writes.write_file(&mut out);
        let told = told_by(&out[..length]);
        let same = told.is_some_and(|told| self.states.now.same(told.into_iter()));
        must(answer == DONE && same, || {
            format!("the file of {length} bytes, answer {answer}, tells of others")
        })?;
        let (mut keys, mut records) = (vec![0; 6000], vec![0; 6000]);
        lists.list(0, &mut keys, &mut records);
        let alike = writes == lists && writes.report == lists.report;
        must(alike, || {
            "writing leaves other pages than a list".to_string()
        })
    }

    fn sync(&mut self, counters: &mut Counters) -> Played {
        let before = self.store.session.c;
        let answer = self.store.sync();
        self.answer = DONE;
        self.opened = None;
        counters.answer(Counted::Sync, answer);
        let expected = if before > LAST_NUMBER { SPENT } else { DONE };
        if answer == DONE {
            self.states.settle();
            self.crashed = false;
        }
        must(answer == expected, || format!("sync answers {answer}"))
    }

    /// Syncs of an unchanged store only raise counter and number: many are made at one stroke.
    fn syncs_until(&mut self, left: u32, counters: &mut Counters) -> Played {
        self.sync(counters)?;
        let c = LAST_NUMBER - left;
        if self.store.session.c < c {
            self.store.session.c = c;
            put32(&mut self.store.working, zero::NUMBER, c + 1);
            put32(&mut self.store.stable, zero::NUMBER, c + 1);
        }
        Ok(())
    }

    /// Every call refuses a table of another length, and a session of one.
    fn misfit(&mut self, pages: usize, counters: &mut Counters) -> Played {
        let mut other = self.store.clone();
        if pages == usize::from(self.store.session.n) {
            other.session.n += 1;
        } else {
            other.stable.resize(pages * PAGE, 0);
        }
        let before = other.clone();
        let mut answered = |call, answer, report| {
            counters.answer(call, answer);
            answer == LENGTH && report == Report::default()
        };
        let mut items = [Item::new(1, 1)];
        let batch = other.batch(&mut items);
        let (told, untouched) = (other.report, items == [Item::new(1, 1)]);
        let list = |store: &mut Store| store.list(0, &mut [0], &mut [0]).0;
        let refused = answered(Counted::Insert, other.insert(1, 1), other.report)
            && answered(Counted::Withdraw, other.withdraw(1), other.report)
            && answered(Counted::Batch, batch, told)
            && untouched
            && answered(Counted::Lookup, other.lookup(1).0, other.report)
            && answered(Counted::Newest, other.newest(0, 1).0, other.report)
            && answered(Counted::HasAny, other.has_any(0, 1).0, other.report)
            && answered(Counted::List, list(&mut other), other.report)
            && answered(Counted::Sync, other.sync(), other.report)
            && other == before;
        must(refused, || "a wrong length was taken".to_string())?;
        if other.session.n == self.store.session.n {
            counters.answer(Counted::Open, other.open());
            let none = Session::new(0, 0);
            let refused = other
                == Store {
                    session: none,
                    ..before
                };
            must(refused, || "opening took a wrong length".to_string())?;
        }
        Ok(())
    }
}
